"""The sections of the DOM Standard with their algorithms and concepts, as far as the sources refer to them.

The numbers and titles are those of the living Standard, https://dom.spec.whatwg.org. Beside each name stand a public call whose contract
leads to its definition, by its type's name or its crate's and its own, and the example that shows it, a script below examples/ without its
ending; a name without these may be referred to, and has no definition of its own. A section without names is one that the sources may
refer to as a whole, or not at all. ABSENT says of each part of the Standard what of it is not here.
"""

CHAPTERS = {"1": "Infrastructure", "2": "Events", "4": "Nodes", "5": "Ranges", "6": "Traversal"}

SECTIONS = [
    ("1.1", "Trees", {
        "tree": None,
        "tree order": ("Selector::query_all", "commands/selecting-queries-find-in-tree-order"),
        "parent": ("Forest::parent", "commands/reads-reads-say-where-nodes-stand"),
        "child": ("Forest::first", "commands/reads-reads-say-where-nodes-stand"),
        "root": ("Forest::root", "calls/ranges-a-removed-root-moves-nothing"),
        "descendant": ("Selector::query_all", "calls/selectors-queries-give-descendants-in-order"),
        "inclusive descendant": ("Forest::following", "commands/reads-a-tree-is-told-whole"),
        "ancestor": ("Forest::parent", "commands/reads-reads-say-where-nodes-stand"),
        "inclusive ancestor": ("Forest::is_inclusive_ancestor", "commands/reads-reads-say-where-nodes-stand"),
        "sibling": ("Forest::next", "calls/selectors-combinators-count-elements-alone"),
        "previous sibling": ("Forest::prev", "calls/observers-records-of-children-come-whole"),
        "next sibling": ("Forest::next", "calls/observers-records-of-children-come-whole"),
        "preceding": None,
        "following": None,
        "first child": None,
        "last child": None,
        "index": ("Forest::index", "calls/ranges-insertions-move-greater-offsets"),
    }),
    ("1.2", "Ordered sets", {}),
    ("1.3", "Selectors", {
        "scope-match a selectors string": ("Selector::query_all", "calls/selectors-a-query-gives-what-a-plain-filter-does"),
    }),
    ("2.2", "Interface Event", {
        "event flags": ("Listeners::dispatch", "rows/stop-and-cancel"),
        "eventPhase": ("Listeners::dispatch", "calls/dispatch-captures-then-bubbles"),
        "set the canceled flag": ("Listeners::dispatch", "calls/dispatch-to-a-passive-listener"),
        "path": ("Path::build", "calls/paths-of-a-slotted-node"),
        "composedPath()": ("Path::composed_path", "calls/dispatch-through-a-closed-tree"),
        "EventInit": None,
    }),
    ("2.7", "Interface EventTarget", {
        "event listener": ("Listeners::listen", "rows/listeners"),
        "event listener list": ("dom_dispatch::law_one_list_serves_all", "rows/listeners"),
        "add an event listener": ("Listeners::listen", "calls/dispatch-to-a-listener-added-twice"),
        "remove an event listener": ("Listeners::unlisten", "calls/dispatch-once-a-listener-is-taken-away"),
        "get the parent": ("dom_worlds::path_follows_parents", "calls/paths-of-a-slotted-node"),
        "addEventListener()": None,
        "removeEventListener()": None,
        "dispatchEvent()": None,
    }),
    ("2.9", "Dispatching events", {
        "dispatch": ("Listeners::dispatch", "calls/dispatch-captures-then-bubbles"),
        "append to an event path": ("Path::build", "calls/paths-of-a-slotted-node"),
        "invoke": ("Listeners::dispatch", "calls/dispatch-stopped-while-bubbling"),
        "inner invoke": ("Listeners::dispatch", "calls/dispatch-stopped-now"),
    }),
    ("2.10", "Firing events", {
        "fire an event": ("Machine::answer", "rows/slots-renamed-and-moved"),
    }),
    ("4.2", "Node tree", {
        "length": ("Forest::length", "calls/ranges-text-is-units"),
    }),
    ("4.2.2", "Shadow tree", {
        "shadow tree": ("Path::build", "commands/components-names-of-other-trees-are-foreign"),
        "connected": ("Doc::is_connected", "commands/selecting-nodes-are-connected-below-a-document"),
    }),
    ("4.2.2.1", "Slots", {
        "slot": ("Slots::slot_of", "calls/slots-take-elements-and-texts"),
        "slot name": ("Slots::slot_of", "calls/slots-of-one-name-follow-one-another"),
        "assigned nodes": ("dom_node_commands::assigned", "commands/components-what-is-assigned-is-told-inside-alone"),
    }),
    ("4.2.2.2", "Slottables", {
        "slottable": ("dom_node_commands::slot_of", "calls/slots-take-elements-and-texts"),
        "slottable name": ("Slots::slot_of", "sessions/named-slot-and-fallback"),
    }),
    ("4.2.2.3", "Finding slots and slottables", {
        "find a slot": ("Slots::slot_of", "calls/slots-of-one-name-follow-one-another"),
        "find slottables": ("dom_node_commands::assigned", "calls/slots-take-elements-and-texts"),
    }),
    ("4.2.2.4", "Assigning slottables and slots", {
        "assign slottables": ("Doc::insert", "calls/slots-one-removal-signals-five"),
        "assign slottables for a tree": ("Doc::insert", "calls/slots-in-slots-renamed-and-removed"),
        "assign a slot": ("Doc::insert", "calls/slots-one-removal-signals-five"),
    }),
    ("4.2.2.5", "Signaling slot change", {
        "signal a slot change": ("Doc::insert", "calls/slots-that-are-bare-are-signalled"),
    }),
    ("4.2.3", "Mutation algorithms", {
        "ensure pre-insert validity": ("Forest::check_insert", "rows/validity-in-order"),
        "pre-insert": ("Doc::insert", "commands/moving-a-node-goes-before-a-child"),
        "insert": ("Doc::insert_unchecked", "calls/doc-fragments-give-their-children"),
        "append": ("Doc::insert", "rows/append-and-remove"),
        "replace": ("Doc::replace", "calls/doc-replacements-keep-the-place"),
        "replace all": ("Doc::set_text", "rows/text-replaced"),
        "remove": ("Doc::remove", "calls/ranges-removals-leave-nothing-inside"),
        "suppress observers flag": ("Doc::replace", "calls/observers-records-of-children-come-whole"),
    }),
    ("4.2.6", "Mixin ParentNode", {
        "querySelectorAll()": ("Selector::query_all", "commands/selecting-queries-find-in-tree-order"),
    }),
    ("4.2.9", "Mixin Slottable", {
        "assignedSlot": None,
    }),
    ("4.3", "Mutation observers", {
        "registered observer": ("Observers::observe", "calls/observers-a-filter-is-its-registrations"),
        "transient registered observer": ("Observers::transient", "rows/transient-registrations"),
        "queue a mutation observer microtask": ("Queue::push_notify", "commands/observing-records-come-when-a-turn-ends"),
        "notify mutation observers": ("Observers::notify", "calls/observers-are-notified-as-they-became-pending"),
    }),
    ("4.3.1", "Interface MutationObserver", {
        "MutationObserver": ("Observers::make", "commands/observing-records-are-taken-once"),
        "MutationObserverInit": None,
        "record queue": ("Observers::notify", "commands/observing-records-are-taken-once"),
        "observe()": ("Observers::observe", "calls/observers-observing-again-replaces-the-options"),
        "disconnect()": ("Observers::disconnect", "commands/observing-disconnect-forgets"),
        "takeRecords()": ("Doc::take_records", "commands/observing-records-are-taken-once"),
    }),
    ("4.3.2", "Queuing a mutation record", {
        "queue a mutation record": ("Observers::queue_record", "calls/observers-old-values-go-to-those-who-asked"),
        "queue a tree mutation record": ("Doc::remove", "calls/observers-records-of-children-come-whole"),
    }),
    ("4.3.3", "Interface MutationRecord", {
        "MutationRecord": None,
    }),
    ("4.4", "Interface Node", {
        "node document": ("Doc::adopt", "calls/doc-a-node-is-adopted-with-what-is-below-it"),
        "clone a single node": ("dom_range_ops::extract", "calls/ranges-extract-copies-attributes"),
        "contains()": ("Forest::is_inclusive_ancestor", "commands/reads-reads-say-where-nodes-stand"),
        "normalize()": ("Doc::normalize", "commands/data-texts-are-joined"),
        "textContent": ("Doc::set_text", "rows/text-replaced"),
        "string replace all": ("Doc::set_text", "commands/data-text-takes-the-place-of-children"),
    }),
    ("4.5", "Interface Document", {
        "adopt": ("Doc::adopt", "commands/moving-a-node-is-adopted"),
        "adoptNode()": ("Doc::adopt", "commands/moving-a-node-is-adopted"),
        "createNodeIterator()": ("dom_query_commands::new_cursor", "rows/iterator-under-removal"),
        "createTreeWalker()": ("dom_query_commands::new_cursor", "rows/walkers-and-filters"),
        "createElement()": ("dom_node_commands::new_element", "commands/making-each-kind-is-made"),
    }),
    ("4.7", "Interface DocumentFragment", {
        "host-including inclusive ancestor": ("Forest::check_insert", "commands/moving-validity-has-an-order"),
    }),
    ("4.8", "Interface ShadowRoot", {
        "host": ("Path::build", "calls/slots-hosts-and-roots-find-each-other"),
        "shadow-including root": ("Doc::is_connected", "commands/selecting-nodes-are-connected-below-a-document"),
        "shadow-including inclusive ancestor": ("Doc::is_connected", "calls/paths-out-of-a-host-in-another-host"),
        "shadow-including inclusive descendant": ("Doc::adopt", "commands/moving-a-node-is-adopted"),
        "shadow-including tree order": ("Doc::adopt", "commands/moving-a-node-is-adopted"),
        "closed-shadow-hidden": ("Path::composed_path", "calls/paths-of-a-slotted-node"),
        "retarget": ("Path::build", "calls/dispatch-with-a-related-node-within"),
    }),
    ("4.9", "Interface Element", {
        "attribute list": ("Forest::law_attributes_have_own_names", "commands/attributes-attributes-are-set-and-go"),
        "get an attribute by name": ("Forest::attr", "commands/attributes-attributes-are-set-and-go"),
        "set an attribute value": ("Forest::set_attr", "commands/attributes-attributes-are-set-and-go"),
        "change an attribute": ("Doc::set_attr", "calls/observers-old-values-go-to-those-who-asked"),
        "append an attribute": ("Doc::set_attr", "commands/attributes-attributes-are-set-and-go"),
        "remove an attribute": ("Doc::remove_attr", "commands/attributes-attributes-are-set-and-go"),
        "shadow host": ("Path::build", "calls/slots-hosts-and-roots-find-each-other"),
        "valid shadow host name": ("Doc::attach", "commands/components-an-element-is-a-host-once"),
        "attach a shadow root": ("Doc::attach", "commands/components-an-element-is-a-host-once"),
        "shadow root": ("Slots::root_of", "calls/slots-hosts-and-roots-find-each-other"),
        "ID": None,
        "local name": None,
        "shadowRoot": None,
        "matches()": ("Selector::matches", "commands/selecting-selectors-are-matched"),
    }),
    ("4.9.2", "Interface Attr", {}),
    ("4.10", "Interface CharacterData", {
        "replace data": ("Doc::replace_data", "calls/ranges-replaced-data-move-what-follows"),
        "data": None,
    }),
    ("4.11", "Interface Text", {
        "split a Text node": ("Doc::split", "calls/ranges-split-texts-share-their-points"),
        "contiguous exclusive Text nodes": ("Doc::normalize", "calls/ranges-joined-texts-take-their-points"),
    }),
    ("4.14", "Interface Comment", {}),
    ("5", "Ranges", {}),
    ("5.2", "Boundary points", {
        "boundary point": ("RangeTable::points", "calls/ranges-points-have-an-order"),
        "position": ("dom_ranges::is_before", "calls/ranges-points-have-an-order"),
    }),
    ("5.3", "Interface AbstractRange", {
        "collapsed": ("dom_range_ops::delete", "calls/ranges-are-dropped-and-collapsed"),
    }),
    ("5.5", "Interface Range", {
        "new Range()": ("Doc::range_make", "commands/ranging-a-component-begins-a-range-at-its-shadow-root"),
        "range's root": ("dom_worlds::ranges_have_one_root", "calls/ranges-stay-in-a-root-that-is-split"),
        "contained": ("dom_range_ops::range_text", "calls/ranges-text-of-texts"),
        "partially contained": ("dom_range_ops::extract", "calls/ranges-extract-across-depths"),
        "set the start or end": ("RangeTable::set_start", "calls/ranges-the-end-follows-the-start"),
        "setStart()": None,
        "setEnd()": None,
        "collapse()": ("Doc::range_collapse", "commands/ranging-a-range-collapses-to-its-end"),
        "selectNodeContents()": None,
        "deleteContents()": ("dom_range_ops::delete", "calls/ranges-delete-across-depths"),
        "extract": ("dom_range_ops::extract", "calls/ranges-extract-across-depths"),
        "insert a node": ("dom_range_ops::insert_node", "calls/ranges-insert-node-into-a-text"),
        "stringification behavior": ("dom_range_ops::range_text", "calls/ranges-text-of-texts"),
    }),
    ("6", "Traversal", {
        "filter a node": ("Walker::next", "calls/cursors-walk-by-a-name"),
    }),
    ("6.1", "Interface NodeIterator", {
        "NodeIterator pre-remove steps": ("Iter::on_remove", "rows/iterator-under-removal"),
        "traverse": ("Iter::next", "rows/iterator-under-removal"),
        "nextNode()": ("Iter::next", "rows/iterator-under-removal"),
        "previousNode()": ("Iter::previous", "calls/cursors-iterate-until-the-reference-is-removed"),
        "referenceNode": None,
        "pointerBeforeReferenceNode": None,
    }),
    ("6.2", "Interface TreeWalker", {
        "parentNode()": ("Walker::parent", "calls/cursors-walk-over-all-but-skipped-names"),
        "firstChild()": ("Walker::first", "calls/cursors-walk-over-all-but-skipped-names"),
        "lastChild()": ("Walker::last", "calls/cursors-walk-over-all-but-skipped-names"),
        "nextSibling()": ("Walker::next_sibling", "calls/cursors-walk-over-texts-below-skipped-names"),
        "previousSibling()": ("Walker::previous_sibling", "calls/cursors-walk-over-texts-below-skipped-names"),
        "nextNode()": ("Walker::next", "calls/cursors-walk-over-all-but-rejected-names"),
        "previousNode()": ("Walker::previous", "calls/cursors-walk-over-all-but-rejected-names"),
        "currentNode": ("dom_query_commands::set_walker", "commands/cursors-a-walker-outside-its-root-stays"),
    }),
    ("6.3", "Interface NodeFilter", {
        "whatToShow": ("Iter::next", "commands/cursors-filters-show-and-skip"),
    }),
]

ABSENT = {
    "Names": "namespaces, prefixes and local names apart from the name; names with other than ASCII letters, digits, `-` and `_`",
    "Selectors": "pseudo-classes but `:first-child`, `:last-child` and `:not()` of one compound, pseudo-elements, escapes, the columns of "
    "namespaces, `i` and `s` after an attribute's value; `querySelector()`, `closest()`",
    "Events": "types of events with members of their own (`CustomEvent` and those of other standards), `isTrusted`, `timeStamp`, "
    "`returnValue`, `cancelBubble`, events made apart from their dispatch; the window, so no event goes beyond its document; activation "
    "behaviour, touch targets; the current event of a window; callbacks that run during a dispatch: a listener says beforehand what it "
    "does; errors that a listener throws; `signal` for a listener, and `passive` by default",
    "Aborting": "abort controllers and abort signals, all of it",
    "Kinds of nodes": "doctypes, processing instructions, CDATA sections, attributes as nodes of their own",
    "Shadow trees": "open shadow roots, manual slot assignment, `delegatesFocus`, clonable, "
    "serializable and declarative shadow roots, `onslotchange`; registries of custom elements",
    "Custom elements": "definitions, upgrades, and all custom element reactions; a name of a custom element is only a name that a host "
    "may have",
    "Mutation": "the steps that other standards add when a node is inserted, removed, moved or adopted, or its children or attributes "
    "change; `moveBefore()`; `append()`, `prepend()`, `before()`, `after()`, `replaceChildren()` and `replaceWith()` of several nodes "
    "and strings",
    "Node": "cloning (`extract` alone clones, one node at a time) and importing, `isEqualNode()`, `compareDocumentPosition()`, `baseURI`, "
    "`nodeName`, `lookupPrefix()` and its like",
    "Document": "type, mode, encoding, content type, URL and origin; `DOMImplementation`; `createEvent()`; documents of HTML, so names "
    "keep their case",
    "Element": "`id`, `className`, `slot` and `classList` as properties (the attributes are there), `toggleAttribute()`, "
    "`insertAdjacentElement()` and its like; the attributes as a map; trusted types",
    "CharacterData and Text": "`appendData()`, `insertData()`, `deleteData()` and `substringData()` as calls of their own (`replace-data` "
    "does the first three); `wholeText`",
    "Collections": "`NodeList` and `HTMLCollection` that follow changes, `getElementsByTagName()` and its like, `getElementById()`",
    "Ranges": "static ranges, `selectNode()`, `selectNodeContents()` and the setters before and after a node, `cloneContents()`, "
    "`surroundContents()`, `cloneRange()`, comparisons of ranges and points",
    "Traversal": "filters that are callbacks: a filter is a choice of kinds, and of one name that is skipped or rejected",
    "Other chapters": "sets of tokens (`DOMTokenList`), XPath, XSLT",
    "Other standards": "parsing and serializing of HTML and XML, styles, layout, scripts; garbage: a node is kept to the end of the run",
}
