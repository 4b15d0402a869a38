"use strict";
// Attr of the DOM Standard: an attribute as a node. Its value stands in the engine while it belongs to an element, and here before and after.
const { attributeParts, written, attributeKey } = require("./names");

module.exports = (realm) => {
  const PARTS = Symbol("name");
  const ELEMENT = Symbol("element");
  const VALUE = Symbol("value");

  class Attr extends realm.Node {
    constructor(key, parts, element, value) {
      if (key !== realm.KEY) throw new TypeError("Illegal constructor");
      super(key);
      this[PARTS] = parts;
      this[ELEMENT] = element;
      this[VALUE] = value;
    }

    get nodeType() { return 2; }
    get nodeName() { return this[PARTS].name; }
    get name() { return this[PARTS].name; }
    get localName() { return this[PARTS].localName; }
    get prefix() { return this[PARTS].prefix; }
    get namespaceURI() { return this[PARTS].namespaceURI; }
    get specified() { return true; }
    get ownerElement() { return this[ELEMENT]; }
    get ownerDocument() { return this[ELEMENT]?.ownerDocument ?? realm.document; }
    get value() { return this[ELEMENT] === null ? this[VALUE] : realm.getKey(this[ELEMENT], this[PARTS].key) ?? ""; }

    set value(value) {
      if (this[ELEMENT] === null) this[VALUE] = `${value}`;
      else realm.setKey(this[ELEMENT], this[PARTS].key, `${value}`);
    }

    get nodeValue() { return this.value; }
    set nodeValue(value) { this.value = value ?? ""; }
    get textContent() { return this.value; }
    set textContent(value) { this.value = value ?? ""; }
    get parentNode() { return null; }
    get firstChild() { return null; }
    get lastChild() { return null; }
    get previousSibling() { return null; }
    get nextSibling() { return null; }
    get isConnected() { return false; }

    cloneNode() {
      return new Attr(realm.KEY, this[PARTS], null, this.value);
    }

    static {
      realm.attrKey = (attr) => attr[PARTS].key;

      /** Take an attribute from its element, with the value that it has there. */
      realm.detach = (attr) => {
        attr[VALUE] = attr.value;
        attr[ELEMENT] = null;
      };
      realm.attach = (attr, element) => {
        attr[ELEMENT] = element;
      };
    }
  }
  realm.Attr = Attr;

  /** An attribute that belongs to no element. */
  realm.newAttr = (namespace, qualified) => new Attr(realm.KEY, attributeParts(written(attributeKey(namespace, qualified))), null, "");
};
