"use strict";
// NamedNodeMap of the DOM Standard: the attributes of an element, in order. An attribute has one object while it stays with its element.
const { engine, checked } = require("./engine");
const { attributeParts } = require("./names");
const { liveList } = require("./lists");

module.exports = (realm) => {
  const { ID, door } = realm;
  const ELEMENT = Symbol("element");
  const ATTRS = Symbol("attributes");

  class NamedNodeMap {
    constructor(key) {
      if (key !== realm.KEY) throw new TypeError("Illegal constructor");
    }

    item(index) { return this[index >>> 0] ?? null; }
    getNamedItem(name) { return this[ELEMENT].getAttributeNode(name); }
    getNamedItemNS(namespace, name) { return this[ELEMENT].getAttributeNodeNS(namespace, name); }
    setNamedItem(attr) { return this[ELEMENT].setAttributeNode(attr); }
    setNamedItemNS(attr) { return this[ELEMENT].setAttributeNode(attr); }

    removeNamedItem(name) {
      const attr = this[ELEMENT].getAttributeNode(name);
      if (attr === null) throw new DOMException("there is no such attribute", "NotFoundError");
      return this[ELEMENT].removeAttributeNode(attr);
    }

    removeNamedItemNS(namespace, name) {
      const attr = this[ELEMENT].getAttributeNodeNS(namespace, name);
      if (attr === null) throw new DOMException("there is no such attribute", "NotFoundError");
      return this[ELEMENT].removeAttributeNode(attr);
    }
  }
  NamedNodeMap.prototype[Symbol.iterator] = Array.prototype[Symbol.iterator];
  realm.NamedNodeMap = NamedNodeMap;

  /** The attributes of an element in order, each by its parts and its value. */
  realm.attributesOf = (element) => {
    const held = checked(engine.attributes(door, element[ID]));
    const all = [];
    for (let at = 0; at < held.length; at += 2) all.push({ ...attributeParts(held[at]), value: held[at + 1] });
    return all;
  };

  /** The one object of an attribute of an element. */
  realm.attrOf = (element, parts) => {
    const attrs = (element[ATTRS] ??= new Map());
    let attr = attrs.get(parts.key);
    if (attr === undefined) {
      attr = new realm.Attr(realm.KEY, parts, element, "");
      attrs.set(parts.key, attr);
    }
    return attr;
  };

  /** Note that an attribute is about to leave its element. */
  realm.leaves = (element, key) => {
    const attr = element[ATTRS]?.get(key);
    if (attr === undefined) return;
    realm.detach(attr);
    element[ATTRS].delete(key);
  };

  /** Give an element an Attr that belongs to none, as the object of its attribute. */
  realm.joins = (element, attr) => {
    (element[ATTRS] ??= new Map()).set(realm.attrKey(attr), attr);
    realm.attach(attr, element);
  };

  const named = (attrs, name) => attrs.find((attr) => attr.name === name);
  const { made } = liveList(realm, NamedNodeMap, named);

  realm.attributeMap = (element) => {
    const map = made(() => realm.attributesOf(element).map((parts) => realm.attrOf(element, parts)));
    Object.defineProperty(map, ELEMENT, { value: element });
    return map;
  };
};
