"""Mutation observers."""
from __future__ import annotations

from collections.abc import Callable, Iterable, Mapping
from typing import TYPE_CHECKING, Any
from xml.dom import NotSupportedErr, WrongDocumentErr

from .callbacks import callback_or_error
from .owner import NAME
from .records import MutationRecord, record_of

if TYPE_CHECKING:
    from .node import Node
    from .owner import Owner

__all__ = ["MutationObserver"]


class MutationObserver:
    """Tells what changed, when the turn of the one who changed it ends (DOM Standard, #interface-mutationobserver).

    `callback` gets a list of `MutationRecord`s, and the observer. An observer observes the nodes of one owner.
    """

    __slots__ = ("callback", "_owner", "_name")

    def __init__(self, callback: Callable[[list[MutationRecord], MutationObserver], Any]) -> None:
        """Make an observer of nothing yet. Raise TypeError for what can't be called."""
        self.callback = callback_or_error(callback)
        self._owner: Owner | None = None
        self._name = ""

    def observe(
        self,
        target: Node,
        options: Mapping[str, Any] | None = None,
        *,
        childList: bool = False,
        attributes: bool | None = None,
        characterData: bool | None = None,
        subtree: bool = False,
        attributeOldValue: bool = False,
        characterDataOldValue: bool = False,
        attributeFilter: Iterable[str] | None = None,
    ) -> None:
        """Observe a node. One that is observed already gets these options in place of the earlier ones.

        Options may also stand in a mapping, as `{"childList": True}`. Raise TypeError where nothing is to be observed, an option asks
        for more of what another one excludes, or there is no such option; NotSupportedErr where attributes alone are to be observed, and
        the filter has no name that an attribute can have."""
        told = {
            "childList": childList,
            "attributes": attributes,
            "characterData": characterData,
            "subtree": subtree,
            "attributeOldValue": attributeOldValue,
            "characterDataOldValue": characterDataOldValue,
            "attributeFilter": attributeFilter,
        }
        for name in options or ():
            if name not in told:
                raise TypeError(f"the options of an observer are {', '.join(told)}: {name!r}")
        words = _words_of({**told, **(options or {})})
        owner = self._owner_for(target)
        owner.ask(" ".join(["observe", self._name, target._name, *words]))
        owner.callbacks.observers[self._name] = self

    def _owner_for(self, target: Node) -> Owner:
        """Give the owner of the nodes that this observer observes, which is that of the first."""
        owner: Owner | None = self._owner or getattr(target, "_owner", None)
        if owner is None and hasattr(target, "_shown"):
            raise WrongDocumentErr(f"foreign: {target!r} is another owner's node")
        if owner is None:
            raise TypeError(f"no node: {target!r}")
        owner.name_of(target)
        if self._owner is None:
            self._owner = owner
            self._name = owner.ask("observer")
        return owner

    def disconnect(self) -> None:
        """Observe nothing any longer, and lose the records that were not told yet."""
        if self._owner is not None and self._owner.callbacks.observers.pop(self._name, None) is not None:
            self._owner.ask(f"disconnect {self._name}")
            self._owner.callbacks.records.pop(self._name, None)

    def takeRecords(self) -> list[MutationRecord]:
        """Give the records that were not told yet, which are then gone."""
        owner = self._owner
        if owner is None:
            return []
        told, _ = owner.engine.exchange(owner, f"take {self._name}")
        return owner.callbacks.records.pop(self._name, []) + [record_of(owner, line) for line in told]


def _words_of(told: dict[str, Any]) -> list[str]:
    """Give the words of the options that are wanted (DOM Standard, #dom-mutationobserver-observe)."""
    names = told.pop("attributeFilter")
    if isinstance(names, str):
        raise TypeError(f"an attributeFilter is a list of names: {names!r}")
    if told["attributes"] is False and (told["attributeOldValue"] or names is not None):
        raise TypeError("attributeOldValue and attributeFilter want attributes")
    if told["characterData"] is False and told["characterDataOldValue"]:
        raise TypeError("characterDataOldValue wants characterData")
    possible = [name for name in names or () if NAME.fullmatch(name)]
    if names is not None and not possible:
        told["attributes"] = told["attributeOldValue"] = False
    words = [word for word, wanted in told.items() if wanted] + [f"filter={','.join(possible)}"] * bool(possible)
    if words in ([], ["subtree"]):
        if names is not None:
            raise NotSupportedErr("not-supported: an attributeFilter of which no name can be an attribute's")
        raise TypeError("childList, attributes or characterData is to be observed")
    return words
