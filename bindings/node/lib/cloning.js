"use strict";
// Cloning, and equality of nodes, by the calls of the engine.
const { engine, checked } = require("./engine");

module.exports = (realm) => {
  const { ID, door, machine } = realm;

  /** A clone of a node alone. */
  function single(node, document, deep) {
    switch (node.nodeType) {
      case 1: {
        const made = realm.create(realm.elementType(node), document);
        const attributes = checked(engine.attributes(door, node[ID]));
        for (let at = 0; at < attributes.length; at += 2) realm.setHeld(made, attributes[at], attributes[at + 1]);
        node[realm.CLONED]?.(made, deep);
        return made;
      }
      case 3: return document.createTextNode(node.data);
      case 8: return document.createComment(node.data);
      case 9: return new realm.Document();
      default:
        if (node instanceof realm.ShadowRoot) throw new DOMException("a shadow root is not cloned", "NotSupportedError");
        return document.createDocumentFragment();
    }
  }

  /** A clone of a node, and with `deep` of all below it. */
  function clone(node, document, deep) {
    const made = single(node, document, deep);
    if (!deep) return made;
    const copies = [made];
    const inside = made.nodeType === 9 ? made : document;
    for (let from = node.firstChild; from !== null; ) {
      const copy = single(from, inside, true);
      checked(engine.append(door, copies[copies.length - 1][ID], copy[ID]));
      copies.push(copy);
      let next = from.firstChild;
      for (; next === null && from !== node; from = from.parentNode) {
        copies.pop();
        next = from.nextSibling;
      }
      from = next;
    }
    machine.changed();
    return made;
  }

  /** Whether two nodes have the same themselves, without their children. */
  function isEqualAlone(one, other) {
    if (one.nodeType !== other.nodeType) return false;
    if (one.nodeType === 3 || one.nodeType === 8) return one.data === other.data;
    if (one.nodeType !== 1) return true;
    const [type, otherType] = [realm.elementType(one), realm.elementType(other)];
    if (type.namespaceURI !== otherType.namespaceURI || type.localName !== otherType.localName || type.prefix !== otherType.prefix) return false;
    const attributes = one.attributes;
    return attributes.length === other.attributes.length &&
      Array.from(attributes).every((each) => other.getAttributeNS(each.namespaceURI, each.localName) === each.value);
  }

  /** Whether two nodes are equal, with all below them. */
  function isEqual(one, other) {
    if (!isEqualAlone(one, other)) return false;
    const [children, others] = [one.childNodes, other.childNodes];
    return children.length === others.length && Array.from(children).every((child, at) => isEqual(child, others[at]));
  }

  return { clone, isEqual };
};
