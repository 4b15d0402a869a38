#!/usr/bin/env python3
"""A widget: a closed tree with a slot, and one event seen from both sides.

Usage: widget.py
"""
from owlantimony.dom import Component, Document, Element, Event, ShownEvent


class Notice:
    """A notice with a button that closes it. It has a component, and never a node of the page."""

    def __init__(self, component: Component) -> None:
        self.component = component
        self.slot = component.createElement("slot")
        self.button = component.createElement("button")
        self.button.append("close")
        component.root.append(self.slot, self.button)
        self.button.addEventListener("press", self.pressed)
        self.slot.addEventListener("slotchange", lambda event: say("notice", event))

    def pressed(self, event: ShownEvent) -> None:
        """Tell the page that the notice wants to go."""
        say("notice", event)
        self.button.dispatchEvent(Event("close", composed=True))

    def press(self) -> None:
        """Do what a click of the user does."""
        self.button.dispatchEvent(Event("press", bubbles=True))


def say(who: str, event: ShownEvent) -> None:
    """Say what one side sees of an event."""
    path = " < ".join(getattr(node, "nodeName", "another's") for node in event.composedPath())
    print(f"{who} sees {event.type} at {event.target.nodeName}, by the path {path}")


def closes(event: ShownEvent) -> None:
    """Take the notice away: the page's own answer to `close`."""
    say("page", event)
    event.target.remove()


def place(document: Document) -> Element:
    """Give an element of the page with some words in it."""
    host = document.createElement("article")
    host.append("all is well")
    document.append(host)
    host.addEventListener("close", closes)
    host.addEventListener("press", lambda event: say("page", event))
    return host


if __name__ == "__main__":
    with Document() as page:
        article = place(page)
        notice = Notice(article.attachShadow())
        print("the page has", article.shadowRoot, "and finds", page.querySelectorAll("button"))
        notice.press()
        print("the page is left with", page.childNodes)
