"use strict";
// ChildNode and NonDocumentTypeChildNode of the DOM Standard: what Element and CharacterData share.
const { engine, checked } = require("./engine");

module.exports = (realm) => {
  const { ID, door, machine } = realm;

  /** The nearest sibling that is none of these nodes. */
  function sibling(node, link, nodes) {
    let at = node[link];
    while (at !== null && nodes.includes(at)) at = at[link];
    return at;
  }

  realm.mixins.ChildNode = class ChildNode {
    get nextElementSibling() {
      let at = this.nextSibling;
      while (at !== null && at.nodeType !== 1) at = at.nextSibling;
      return at;
    }

    get previousElementSibling() {
      let at = this.previousSibling;
      while (at !== null && at.nodeType !== 1) at = at.previousSibling;
      return at;
    }

    before(...nodes) {
      const parent = this.parentNode;
      if (parent === null) return;
      const previous = sibling(this, "previousSibling", nodes);
      const node = realm.joined(nodes);
      parent.insertBefore(node, previous === null ? parent.firstChild : previous.nextSibling);
    }

    after(...nodes) {
      const parent = this.parentNode;
      if (parent === null) return;
      const next = sibling(this, "nextSibling", nodes);
      parent.insertBefore(realm.joined(nodes), next);
    }

    replaceWith(...nodes) {
      const parent = this.parentNode;
      if (parent === null) return;
      const next = sibling(this, "nextSibling", nodes);
      const node = realm.joined(nodes);
      if (this.parentNode === parent) parent.replaceChild(node, this);
      else parent.insertBefore(node, next);
    }

    remove() {
      checked(engine.remove(door, this[ID]));
      machine.changed();
    }
  };
};
