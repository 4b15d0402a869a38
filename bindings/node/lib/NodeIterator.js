"use strict";
// NodeIterator of the DOM Standard. Where it stands is the engine's, which moves it when nodes leave. The engine asks no filter: if there is one, its
// iterator shows all nodes, and the filter is asked here.
const { engine, checked, answered } = require("./engine");

module.exports = (realm) => {
  const { KEY, door, at } = realm;
  const STATE = Symbol("state");

  /** Go back by as many steps as were made, so that an iterator that found nothing stands where it was. */
  function undo(number, back, forth, steps, wasAhead) {
    for (let step = 0; step < steps; step++) back(door, number);
    if (wasAhead && steps > 0) {
      back(door, number);
      forth(door, number);
    }
  }

  /** Move on to the next node that the filter accepts. */
  function move(iterator, forth, back, isForth) {
    const state = iterator[STATE];
    const { number } = state;
    if (state.filter === null) return at(forth(door, number));
    checked(engine.iteratorReference(door, number));
    const wasAhead = (answered()[0] === 1) !== isForth;
    for (let steps = 0; ; steps++) {
      const node = at(forth(door, number));
      if (node === null) {
        undo(number, back, forth, steps, wasAhead);
        return null;
      }
      if (realm.filtered(iterator, state, node) === realm.NodeFilter.FILTER_ACCEPT) return node;
    }
  }

  realm.NodeIterator = class NodeIterator {
    constructor(key, root, show, filter) {
      if (key !== KEY) throw new TypeError("Illegal constructor");
      const id = realm.idOf(root);
      const whatToShow = show === undefined || show === null ? realm.NodeFilter.SHOW_ALL : show >>> 0;
      const state = { root, whatToShow, filter: realm.validFilter(filter), isActive: false, number: 0 };
      state.number = checked(engine.createIterator(door, id, state.filter === null ? whatToShow : realm.NodeFilter.SHOW_ALL));
      this[STATE] = state;
    }

    get root() { return this[STATE].root; }
    get whatToShow() { return this[STATE].whatToShow; }
    get filter() { return this[STATE].filter; }
    get referenceNode() { return at(engine.iteratorReference(door, this[STATE].number)); }

    get pointerBeforeReferenceNode() {
      checked(engine.iteratorReference(door, this[STATE].number));
      return answered()[0] === 1;
    }

    nextNode() { return move(this, engine.iteratorNext, engine.iteratorPrevious, true); }
    previousNode() { return move(this, engine.iteratorPrevious, engine.iteratorNext, false); }
    detach() {}
  };
};
