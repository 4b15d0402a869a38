"use strict";
// TreeWalker of the DOM Standard, by the links of nodes: it has no state but where it stands, and filters are functions.
module.exports = (realm) => {
  const { KEY } = realm;
  const STATE = Symbol("state");
  const ACCEPT = 1, REJECT = 2, SKIP = 3;

  const ask = (walker, node) => realm.filtered(walker, walker[STATE], node);

  function to(walker, node) {
    walker[STATE].current = node;
    return node;
  }

  /** The first or last child, in the Standard's words: traverse children. */
  function child(walker, first, next) {
    const state = walker[STATE];
    let node = state.current[first];
    while (node !== null) {
      const answer = ask(walker, node);
      if (answer === ACCEPT) return to(walker, node);
      if (answer === SKIP && node[first] !== null) {
        node = node[first];
        continue;
      }
      node = around(node, next, state);
    }
    return null;
  }

  /** The next node beside a node, or beside an ancestor of it that is neither the root nor the current node. */
  function around(node, next, state) {
    for (let at = node; at !== null && at !== state.root && at !== state.current; at = at.parentNode) if (at[next] !== null) return at[next];
    return null;
  }

  /** The next or previous sibling: traverse siblings. */
  function sibling(walker, first, next) {
    const { root, current } = walker[STATE];
    if (current === root) return null;
    for (let node = current; ; ) {
      let beside = node[next];
      while (beside !== null) {
        node = beside;
        const answer = ask(walker, node);
        if (answer === ACCEPT) return to(walker, node);
        beside = answer === REJECT || node[first] === null ? node[next] : node[first];
      }
      node = node.parentNode;
      if (node === null || node === root || ask(walker, node) === ACCEPT) return null;
    }
  }

  realm.TreeWalker = class TreeWalker {
    constructor(key, root, show, filter) {
      if (key !== KEY) throw new TypeError("Illegal constructor");
      realm.idOf(root);
      const whatToShow = show === undefined || show === null ? realm.NodeFilter.SHOW_ALL : show >>> 0;
      this[STATE] = { root, current: root, whatToShow, filter: realm.validFilter(filter), isActive: false };
    }

    get root() { return this[STATE].root; }
    get whatToShow() { return this[STATE].whatToShow; }
    get filter() { return this[STATE].filter; }
    get currentNode() { return this[STATE].current; }

    set currentNode(node) {
      realm.idOf(node);
      this[STATE].current = node;
    }

    parentNode() {
      const { root } = this[STATE];
      for (let node = this[STATE].current; node !== null && node !== root; ) {
        node = node.parentNode;
        if (node !== null && ask(this, node) === ACCEPT) return to(this, node);
      }
      return null;
    }

    firstChild() { return child(this, "firstChild", "nextSibling"); }
    lastChild() { return child(this, "lastChild", "previousSibling"); }
    nextSibling() { return sibling(this, "firstChild", "nextSibling"); }
    previousSibling() { return sibling(this, "lastChild", "previousSibling"); }

    previousNode() {
      const { root } = this[STATE];
      let node = this[STATE].current;
      while (node !== root) {
        let before = node.previousSibling;
        while (before !== null) {
          node = before;
          let answer = ask(this, node);
          while (answer !== REJECT && node.lastChild !== null) {
            node = node.lastChild;
            answer = ask(this, node);
          }
          if (answer === ACCEPT) return to(this, node);
          before = node.previousSibling;
        }
        if (node === root || node.parentNode === null) return null;
        node = node.parentNode;
        if (ask(this, node) === ACCEPT) return to(this, node);
      }
      return null;
    }

    nextNode() {
      const { root } = this[STATE];
      let node = this[STATE].current;
      let answer = ACCEPT;
      for (;;) {
        while (answer !== REJECT && node.firstChild !== null) {
          node = node.firstChild;
          answer = ask(this, node);
          if (answer === ACCEPT) return to(this, node);
        }
        let beside = null;
        for (let at = node; at !== null && beside === null; at = at.parentNode) {
          if (at === root) return null;
          beside = at.nextSibling;
        }
        if (beside === null) return null;
        node = beside;
        answer = ask(this, node);
        if (answer === ACCEPT) return to(this, node);
      }
    }
  };
};
