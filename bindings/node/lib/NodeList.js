"use strict";
// NodeList of the DOM Standard: live as childNodes, or as it was when querySelectorAll gave it.
const { liveList } = require("./lists");

module.exports = (realm) => {
  class NodeList {
    constructor(key) {
      if (key !== realm.KEY) throw new TypeError("Illegal constructor");
    }

    item(index) {
      return this[index >>> 0] ?? null;
    }
  }
  for (const name of ["forEach", "entries", "keys", "values"]) NodeList.prototype[name] = Array.prototype[name];
  NodeList.prototype[Symbol.iterator] = Array.prototype[Symbol.iterator];
  realm.NodeList = NodeList;

  /** A live list: `ask` gives its nodes. */
  realm.liveNodes = liveList(realm, NodeList).made;

  /** A list of these nodes. */
  realm.staticNodes = (nodes) => {
    const list = new NodeList(realm.KEY);
    for (let at = 0; at < nodes.length; at++) list[at] = nodes[at];
    Object.defineProperty(list, "length", { value: nodes.length });
    return list;
  };
};
