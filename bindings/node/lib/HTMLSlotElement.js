"use strict";
// HTMLSlotElement of HTML: in a component's tree the host's children show here. They are another owner's, so a component can only compare them.
const { engine, checked, listed } = require("./engine");
const { reflect } = require("./reflection");

const PAGE = 0;

module.exports = (realm) => {
  const { ID, door } = realm;

  realm.HTMLSlotElement = class HTMLSlotElement extends realm.HTMLElement {
    /** The nodes that are assigned to this slot, and with `flatten` its own children if there are none. */
    assignedNodes(options) {
      if (realm.owner === PAGE) return [];
      const pairs = listed(() => engine.assigned(door, this[ID]), 2);
      const nodes = [];
      for (let at = 0; at < pairs.length; at += 2) nodes.push(realm.shown(pairs[at], pairs[at + 1]));
      const isInTree = () => checked(engine.contains(door, 0, this[ID])) === 1;
      return nodes.length === 0 && options?.flatten && isInTree() ? Array.from(this.childNodes) : nodes;
    }
  };
  reflect(realm, realm.HTMLSlotElement, { name: "name" });
  realm.setInterface(realm.HTMLSlotElement, "slot");
};
