"""The named differences in observers, slots and their notifications (known.py)."""
from differences import Known, lines

# A host whose component has a slot and listens there: with nothing assigned; with a child of the host; with a second slot of its name.
SLOT = lines("""
        c1 new element slot
        c1 append m0 m1
        c1 listen m1 slotchange a log""")
HOST_WITH_A_CHILD = lines("""
        p new element div
        p new element b
        p attach n1
        p append n1 n2
        p .""")
BARE_SLOT = lines("""
        p new element div
        p attach n1
        p .""") + SLOT
TAKEN_SLOT = HOST_WITH_A_CHILD + SLOT + "c1 .\n"
TWO_SLOTS = HOST_WITH_A_CHILD + lines("""
        c1 new element slot
        c1 new element slot
        c1 append m0 m1
        c1 append m0 m2
        c1 listen m1 slotchange a log
        c1 listen m2 slotchange b log
        c1 .""")

OBSERVERS = {
    "observer-order": Known(
        "fixed", "CFJ",
        "observers are notified in the order in which they were made, not in that in which they became pending", lines("""
        p new element a
        p observer
        p observer
        p observe o0 n1 attributes
        p observe o1 n0 childList
        p append n0 n1
        p set n1 id "a"
        p .""")),
    "transients": Known(
        "fixed", "CFJ",
        "a removed node is observed until its observer is notified; browsers drop that at the end of the turn also where the "
        "observer took no record, and for what left a removed node also when the first node is observed again; jsdom never has "
        "it", lines("""
        p new element p
        p new element b
        p append n1 n2
        p observer
        p observe o0 n1 attributes subtree
        p remove n2
        p .
        p set n2 id "a"
        p take o0""")),
    "leaving-notifies": Known(
        "fixed", "CF",
        "a node leaves that an observer goes on observing, and the observer does not ask for children: a notification is "
        "queued, which then stands before microtasks that come before the first record", lines("""
        p new element a
        p new element b
        p append n1 n2
        p observer
        p observe o0 n1 attributes subtree
        p .
        p remove n2
        p micro k
        p set n1 id "x"
        p .""")),
    "removal-notifies": Known(
        "fixed", "F",
        "`remove` and `adopt` of a node below one that an observer observes, shadow trees counted in, whatever it asks for, and one "
        "there that `delete` or `normalize` takes: a notification is queued, which then stands before microtasks that come before the "
        "first record", lines("""
        p new element a
        p new element b
        p append n1 n2
        p observer
        p observe o0 n1 attributes
        p .
        p remove n2
        p micro k
        p set n1 id "x"
        p ."""), lines("""
        p new element a
        p new element b
        p append n1 n2
        p range-new
        p range-end r0 n1 1
        p range-start r0 n1 0
        p observer
        p observe o0 n1 attributes
        p .
        p delete r0
        p micro k
        p set n1 id "x"
        p ."""), lines("""
        p new element div
        p attach n1
        p .
        c1 new element b
        c1 append m0 m1
        c1 .
        p observer
        p observe o0 n1 attributes
        p .
        c1 remove m1
        c1 micro k
        c1 observer
        c1 observe o0 m1 attributes
        c1 set m1 id "x"
        c1 .""")),
    "early-notification": Known(
        "fixed", "J",
        "a change that no observer takes queues a notification, which then stands before microtasks that come before the first "
        "record (own rule of the protocol: such a change queues none; by the Standard's text there is one)", lines("""
        p new element a
        p new element b
        p observer
        p observe o0 n1 attributes
        p .
        p set n2 id "x"
        p micro k
        p set n1 id "x"
        p .""")),
    "slot-order": Known(
        "fixed", "CFJ",
        "a slot comes, goes or gets another name: the Standard signals the slots of its tree whose lists change by that in tree "
        "order, and behind them the slots of what left; browsers in another order", TWO_SLOTS + lines("""
        c1 remove m1
        c1 ."""), TWO_SLOTS + lines("""
        c1 replace m0 m2 m1
        c1 .""")),
    "slot-replaced": Known(
        "fixed", "CFJ",
        "a child is replaced where that signals slots: browsers remove the new node first, so that a slot is signalled which a "
        "child of its own takes the place of, and slots stand in another order", BARE_SLOT + lines("""
        c1 new element i
        c1 append m1 m2
        c1 .
        c1 replace m0 m2 m1
        c1 ."""), BARE_SLOT + lines("""
        c1 new element slot
        c1 append m1 m2
        c1 .
        c1 replace m0 m2 m1
        c1 .""")),
    "comment-untold": Known(
        "fixed", "C",
        "a Comment comes to a slot that has nothing assigned, or leaves it: the slot is not signalled", BARE_SLOT + lines("""
        c1 .
        c1 new comment "x"
        c1 append m1 m2
        c1 .""")),
    "empty-name": Known(
        "fixed", "CF",
        "the `name` of a slot is set to the empty string where there was none, or an empty one goes: the slot is signalled", TAKEN_SLOT + lines("""
        c1 set m1 name ""
        c1 .""")),
    "empty-slot": Known(
        "fixed", "C",
        "the `slot` of a host's child is set to the empty string where there was none, or an empty one goes: its slot is signalled", TAKEN_SLOT + lines("""
        p set n2 slot ""
        p .""")),
    "slots-together": Known(
        "fixed", "F",
        "several slots of one name come or go in one tree: each comes or goes for itself, so that slots of that name are "
        "signalled whose lists are the same in front of the command and behind it", lines("""
        p new element div
        p new element b
        p attach n1
        p append n1 n2
        p .
        c1 new element i
        c1 new element slot
        c1 new element slot
        c1 append m1 m2
        c1 append m1 m3
        c1 append m0 m1
        c1 listen m3 slotchange a log
        c1 .
        c1 remove m1
        c1 .""")),
    "slot-kept": Known(
        "ends", "J",
        "an event goes to the slot that its target, or what is above it, was assigned to and is no more, as where it left the "
        "host; where that host is below it by now, the event's path goes round without an end", lines("""
        p new element div
        p new element b
        p attach n1
        p .
        c1 new element slot
        c1 append m0 m1
        p append n1 n2
        p listen n1 e a log
        p remove n2
        p dispatch n2 e bubbles composed""")),
}
