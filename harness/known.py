"""The differences between browsers and the protocol that have a name.

A difference is of one of three sorts:
  fixed    the adapter can do as the DOM Standard has it (fixes.js, lasting.js, slots.js, queue.js); the whole output must then agree;
  passed   a command that changes nothing is answered otherwise: that answer is passed over, and all else must agree;
  ends     the DOM cannot be brought to where the protocol is: the output must agree up to there, and the rest is not compared.
It is looked for in those engines alone that are known to have it; C, F and J are Chromium, Firefox and jsdom.
"""
from differences import Known, lines
from known_observers import OBSERVERS

KNOWN = {
    "sibling-inserted": Known(
        "fixed", "CFJ",
        "a node is inserted where it has the same parent already: browsers remove it first; the Standard moves ranges and takes "
        "the record's previous sibling before it leaves", lines("""
        p new element ul
        p new element li
        p append n1 n2
        p observer
        p observe o0 n1 childList
        p append n1 n2
        p take o0""")),
    "replaced": Known(
        "fixed", "CFJ",
        "a child is replaced by itself or by a sibling: browsers remove the new node first; the Standard removes the child "
        "first", lines("""
        p new element ul
        p new element li
        p append n1 n2
        p observer
        p observe o0 n1 childList
        p replace n1 n2 n2
        p take o0""")),
    "split-records": Known(
        "fixed", "CF",
        "a Text is split: browsers cut the data first and then place the new Text, and so stand the records", lines("""
        p new element p
        p new text "abcd"
        p append n1 n2
        p observer
        p observe o0 n1 childList characterData subtree
        p split n2 2
        p take o0""")),
    "cut-records": Known(
        "fixed", "C",
        "contents of a range are deleted or extracted: browsers cut the data at both ends before nodes leave", lines("""
        p new element p
        p new text "abcd"
        p new element hr
        p new text "efgh"
        p append n1 n2
        p append n1 n3
        p append n1 n4
        p range-new
        p range-start r0 n2 2
        p range-end r0 n4 2
        p observer
        p observe o0 n1 childList characterData subtree
        p delete r0
        p take o0""")),
    "backward-records": Known(
        "fixed", "C",
        "contents of a range are deleted or extracted: what is in front of the range's end leaves from the end backwards, and "
        "before what is between the children that hold the ends", lines("""
        p new element ul
        p new element a
        p new element b
        p new element i
        p append n0 n1
        p append n1 n2
        p append n1 n3
        p append n1 n4
        p range-new
        p range-end r0 n4 0
        p observer
        p observe o0 n1 childList
        p delete r0
        p take o0""")),
    "normalize-steps": Known(
        "fixed", "CFJ",
        "Texts are joined: the Standard writes one record of all data that come, of none too, and then one for each Text that "
        "goes; Chromium and Firefox join them one by one, and let empty ones go first; in jsdom a boundary in a Text that goes "
        "is not moved into the one that stays", lines("""
        p new element p
        p new text "a"
        p new text ""
        p append n1 n2
        p append n1 n3
        p observer
        p observe o0 n1 childList characterData subtree
        p normalize n1
        p take o0"""), lines("""
        p new element p
        p new text "a"
        p new text "b"
        p append n1 n2
        p append n1 n3
        p range-new
        p range-end r0 n3 1
        p range-collapse r0 end
        p normalize n1
        p range-get r0""")),
    "lone-records": Known(
        "fixed", "J",
        "a Text that normalize joins with none has a record of its data (own rule of the protocol: it has none; by the "
        "Standard's text there is one)", lines("""
        p new element p
        p new text "a"
        p append n1 n2
        p observer
        p observe o0 n1 characterData subtree
        p normalize n1
        p take o0""")),
    "same-text": Known(
        "fixed", "C",
        "textContent of a node whose only child is a Text with these data already: Chromium does nothing", lines("""
        p new element p
        p text n1 "a"
        p text n1 "a"
        p tree n1""")),
    "iterator-kept": Known(
        "fixed", "C",
        "an iterator whose reference leaves with nothing behind it stays with the node that left", lines("""
        p new element div
        p new element a
        p new text "x"
        p append n1 n2
        p append n2 n3
        p iter-new n1 all
        p iter-next i0
        p iter-next i0
        p iter-next i0
        p iter-prev i0
        p remove n2
        p iter-at i0""")),
    "leaving-together": Known(
        "fixed", "C",
        "an iterator behind one of several children which leave together goes to one of the others, that leaves too", lines("""
        p new element p
        p new text "a"
        p new text "b"
        p append n1 n2
        p append n1 n3
        p iter-new n1 all
        p iter-next i0
        p iter-next i0
        p iter-next i0
        p text n1 "c"
        p iter-at i0"""), lines("""
        p new element p
        p new fragment
        p new text "a"
        p new text "b"
        p append n2 n3
        p append n2 n4
        p iter-new n2 all
        p iter-next i0
        p iter-next i0
        p iter-next i0
        p append n1 n2
        p iter-at i0""")),
    "insert-node-offset": Known(
        "fixed", "F",
        "insert-node of a node that has the place's parent already: the end's offset is counted before the node leaves, and may "
        "be past the end", lines("""
        p new element p
        p new element b
        p append n1 n2
        p range-new
        p range-end r0 n1 1
        p range-collapse r0 end
        p insert-node r0 n2""")),
    "document-inside-itself": Known(
        "fixed", "C",
        "a document is put into itself in front of a node that is no child of it: refused as hierarchy, and by Chromium as "
        "not-found", lines("""
        p new element a
        p replace n0 n0 n1""")),
    "refused-end-moves": Known(
        "fixed", "C",
        "an end is refused as index-size in another document: Chromium has moved the range to that document's start", lines("""
        p new text "abc"
        p append n0 n1
        p range-new
        p document
        p new element b
        p range-start r0 n2 1
        p range-get r0""")),
    "start-behind-end": Known(
        "ends", "CFJ",
        "a range whose start comes to stand behind its end, by sibling-inserted or replaced: no range of a browser can", lines("""
        p new element ul
        p new element a
        p new element b
        p new element i
        p append n1 n2
        p append n1 n3
        p append n1 n4
        p range-new
        p range-start r0 n3 0
        p range-end r0 n1 2
        p insert n1 n4 n2
        p range-get r0""")),
    "split-alone": Known(
        "fixed", "F",
        "a Text without a parent is split: what pointed behind the place goes into the new Text", lines("""
        p new text "abcd"
        p range-new
        p range-end r0 n1 3
        p split n1 1
        p range-get r0""")),
    "contents-left": Known(
        "ends", "F",
        "delete or extract leaves nodes of the range where they are, or refuses it, in a shadow root or below a host", lines("""
        p new element div
        p attach n1
        p .
        c1 new element b
        c1 append m0 m1
        c1 range-new
        c1 range-end r0 m0 1
        c1 delete r0
        c1 tree m0""")),
    "delete-endless": Known(
        "ends", "F",
        "delete of a range that starts in a child of a slot to which others are assigned, and ends in the slot's parent: it may never "
        "end, and is not tried", lines("""
        p new element div
        p new element i
        p append n1 n2
        p attach n1
        p .
        c1 new element slot
        c1 new element b
        c1 new element u
        c1 append m0 m1
        c1 append m1 m2
        c1 append m2 m3
        c1 range-new
        c1 range-end r0 m0 1
        c1 range-start r0 m2 0
        c1 delete r0
        c1 children m2""")),
    "host-matched": Known(
        "fixed", "C",
        "`* *` looked for in a shadow root: Chromium has the first `*` match the host, which has no features there", lines("""
        p new element div
        p attach n1
        p .
        c1 new element b
        c1 append m0 m1
        c1 query m0 "* *\"""")),
    "empty-records": Known(
        "fixed", "J",
        "a record of children in which none came and none went", lines("""
        p new fragment
        p new element a
        p observer
        p observe o0 n1 childList
        p append n2 n1
        p take o0""")),
    "filters": Known(
        "ends", "J",
        "a cursor with a filter throws a TypeError", lines("""
        p new element a
        p iter-new n1 all skip=b
        p iter-next i0""")),
    "root-left": Known(
        "ends", "J",
        "an ancestor of an iterator's root leaves (own rule of the protocol: the iterator stays): by the Standard's text it "
        "goes to a node outside its root", lines("""
        p new element a
        p new element b
        p new element i
        p append n1 n2
        p append n2 n3
        p iter-new n3 all
        p remove n2
        p iter-at i0""")),
    "iterator-untold": Known(
        "ends", "J",
        "an iterator of a root in another document than the one that made it stays with what leaves", lines("""
        p document
        p new element a
        p new element b
        p append n1 n2
        p append n2 n3
        p iter-new n2 all
        p iter-next i0
        p iter-next i0
        p remove n3
        p iter-at i0""")),
    "ranges": Known(
        "ends", "J",
        "the ends or the text of a range are not the Standard's, as where nodes come into the node of the range's other end", lines("""
        p new element p
        p new element b
        p new element i
        p append n1 n2
        p append n2 n3
        p range-new
        p range-end r0 n1 1
        p range-start r0 n2 1
        p new element hr
        p insert n1 n4 n2
        p range-get r0""")),
    "selectors": Known(
        "passed", "J",
        "a name in a selector is looked for in lower case; `|=` with the empty string does not find what begins with a hyphen; "
        "`^=`, `$=`, `*=` and `~=` with it find an empty value; and a selector of many thousand parts takes all stack", lines("""
        p new element DIV
        p matches n1 "DIV\""""), lines("""
        p new element a
        p set n1 lang "-x"
        p matches n1 "[lang|='']\""""), lines("""
        p new element a
        p set n1 lang ""
        p matches n1 "[lang^='']\""""), lines(f"""
        p new element a
        p matches n1 "{"a " * 30000}a\"""")),
    "replaced-units": Known(
        "passed", "CFJ",
        "U+0000 in a selector stands for U+FFFD, and in Firefox a lone surrogate does (own rule of the protocol: each stands "
        "for itself)", lines("""
        p new element a
        p set n1 lang "\\u0000"
        p matches n1 "[lang='\\u0000']\""""), lines("""
        p new element a
        p set n1 lang "\\ud83d"
        p matches n1 "[lang='\\ud83d']\"""")),
    "fragment-adopted": Known(
        "fixed", "J",
        "a fragment that gives its children gets its parent's document", lines("""
        p document
        p new fragment
        p new element a
        p append n2 n3
        p append n1 n2
        p docof n2""")),
    **OBSERVERS,
}
ENDED = ("contents-left", "root-left", "iterator-untold")


def names_in(engine):
    """The names of the differences that an engine may have: all, where it is none of those that are known."""
    letter = {"chromium": "C", "firefox": "F", "jsdom": "J"}.get(engine, "")
    return [name for name, difference in KNOWN.items() if not letter or letter in difference.engines]


def fixes_in(engine):
    """The names of those that the adapter makes good in an engine, or ends a script at."""
    return [name for name in names_in(engine) if KNOWN[name].sort == "fixed" or name in ENDED]
