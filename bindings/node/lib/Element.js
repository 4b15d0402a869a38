"use strict";
// Element of the DOM Standard. Its namespace, prefix and names stand in a type, which elements of one name share; names in the engine are local names.
const { engine, checked, answered } = require("./engine");
const { mix } = require("./mixins");
const { nameNumber, read, attributeKey, validName, extract } = require("./names");
const { inner, outer, setInner, fragmentOf } = require("./markup");
const { reflect } = require("./reflection");

module.exports = (realm) => {
  const { ID, KEY, door, machine } = realm;
  const ATTRIBUTES = Symbol("attributes");
  const CLASSES = Symbol("classList");

  /** An attribute's name, as the methods that take a qualified name read it. */
  const smaller = (element, name) => (realm.elementType(element).isHTML ? `${name}`.toLowerCase() : `${name}`);

  /** The attribute with a qualified name, among those with a namespace. */
  const qualifiedKey = (element, name) => {
    if (!realm.hasNamespacedAttributes) return name;
    return realm.attributesOf(element).find((each) => each.name === name)?.key ?? name;
  };

  realm.qualified = (element) => realm.elementType(element).qualifiedName;
  realm.getKey = (element, key) => {
    const answer = engine.getAttribute(door, element[ID], nameNumber(key));
    return typeof answer === "string" ? answer : (checked(answer), null);
  };
  realm.setKey = (element, key, value) => {
    checked(engine.setAttribute(door, element[ID], nameNumber(key), value));
    machine.altered();
    realm.attributeChanged(element, key);
  };
  realm.setHeld = (element, held, value) => realm.setKey(element, read(held), value);

  function removeKey(element, key) {
    realm.leaves(element, key);
    checked(engine.removeAttribute(door, element[ID], nameNumber(key)));
    machine.altered();
    realm.attributeChanged(element, key);
  }

  class Element extends realm.Node {
    #type; // private: its number counts the names of all owners

    static {
      realm.elementType = (element) => element.#type;
    }

    constructor(key, id, type) {
      if (key !== KEY) throw new TypeError("Illegal constructor");
      super(key, id);
      this.#type = type;
    }

    get nodeType() { return 1; }
    get nodeName() { return this.#type.tagName; }
    get tagName() { return this.#type.tagName; }
    get localName() { return this.#type.localName; }
    get prefix() { return this.#type.prefix; }
    get namespaceURI() { return this.#type.namespaceURI; }
    get attributes() { return (this[ATTRIBUTES] ??= realm.attributeMap(this)); }
    get classList() { return (this[CLASSES] ??= realm.tokens(this, "class")); }
    set classList(value) { this.classList.value = value; }
    get shadowRoot() { return null; }
    get assignedSlot() { return null; }
    get innerHTML() { return inner(this); }
    set innerHTML(value) { setInner(realm, this, this.#type, value === null ? "" : `${value}`); }
    get outerHTML() { return outer(this); }

    set outerHTML(value) {
      const parent = this.parentNode;
      if (parent === null) return;
      if (parent.nodeType === 9) throw new DOMException("a document has one element", "NoModificationAllowedError");
      const context = parent.nodeType === 1 ? parent.#type : realm.htmlType("body");
      parent.replaceChild(fragmentOf(realm, context, value === null ? "" : `${value}`), this);
    }

    hasAttributes() { return this.attributes.length > 0; }
    getAttributeNames() { return realm.attributesOf(this).map((each) => each.name); }

    getAttribute(name) {
      if (arguments.length < 1) throw new TypeError("getAttribute takes a name");
      return realm.getKey(this, qualifiedKey(this, smaller(this, name)));
    }

    getAttributeNS(namespace, name) {
      if (arguments.length < 2) throw new TypeError("getAttributeNS takes a namespace and a name");
      const found = this.getAttributeNodeNS(namespace, name);
      return found === null ? null : found.value;
    }

    setAttribute(name, value) {
      if (arguments.length < 2) throw new TypeError("setAttribute takes a name and a value");
      validName(`${name}`);
      realm.setKey(this, qualifiedKey(this, smaller(this, name)), `${value}`);
    }

    setAttributeNS(namespace, qualifiedName, value) {
      if (arguments.length < 3) throw new TypeError("setAttributeNS takes a namespace, a name and a value");
      const { namespaceURI, localName } = extract(namespace === null ? null : `${namespace}`, `${qualifiedName}`);
      const there = this.getAttributeNodeNS(namespaceURI, localName);
      if (namespaceURI !== null) realm.hasNamespacedAttributes = true;
      realm.setKey(this, there === null ? attributeKey(namespaceURI, `${qualifiedName}`) : realm.attrKey(there), `${value}`);
    }

    removeAttribute(name) {
      if (arguments.length < 1) throw new TypeError("removeAttribute takes a name");
      removeKey(this, qualifiedKey(this, smaller(this, name)));
    }

    removeAttributeNS(namespace, name) {
      if (arguments.length < 2) throw new TypeError("removeAttributeNS takes a namespace and a name");
      const attr = this.getAttributeNodeNS(namespace, name);
      if (attr !== null) removeKey(this, realm.attrKey(attr));
    }

    hasAttribute(name) {
      if (arguments.length < 1) throw new TypeError("hasAttribute takes a name");
      return this.getAttribute(name) !== null;
    }

    hasAttributeNS(namespace, name) {
      return this.getAttributeNS(namespace, name) !== null;
    }

    /** Set an attribute to the empty string, or remove it. Gives whether it is there then. */
    toggleAttribute(name, force) {
      if (arguments.length < 1) throw new TypeError("toggleAttribute takes a name");
      validName(`${name}`);
      const has = this.hasAttribute(name);
      if (!has && (force === undefined || force)) this.setAttribute(name, "");
      if (has && (force === undefined || !force)) this.removeAttribute(name);
      return this.hasAttribute(name);
    }

    getAttributeNode(name) {
      if (arguments.length < 1) throw new TypeError("getAttributeNode takes a name");
      const wanted = smaller(this, name);
      const found = realm.attributesOf(this).find((each) => each.name === wanted);
      return found === undefined ? null : realm.attrOf(this, found);
    }

    getAttributeNodeNS(namespace, name) {
      if (arguments.length < 2) throw new TypeError("getAttributeNodeNS takes a namespace and a name");
      const wanted = namespace === "" || namespace === undefined ? null : namespace;
      const found = realm.attributesOf(this).find((each) => each.namespaceURI === wanted && each.localName === `${name}`);
      return found === undefined ? null : realm.attrOf(this, found);
    }

    /** Give this element an attribute that belongs to none. Gives the one that was there before, or null. */
    setAttributeNode(attr) {
      if (!(attr instanceof realm.Attr)) throw new TypeError("an Attr is expected");
      if (attr.ownerElement === this) return attr;
      if (attr.ownerElement !== null) throw new DOMException("the attribute belongs to another element", "InUseAttributeError");
      const before = this.getAttributeNodeNS(attr.namespaceURI, attr.localName);
      const { value } = attr;
      if (before !== null) realm.leaves(this, realm.attrKey(before));
      if (attr.namespaceURI !== null) realm.hasNamespacedAttributes = true;
      realm.setKey(this, realm.attrKey(attr), value);
      realm.joins(this, attr);
      return before;
    }

    setAttributeNodeNS(attr) { return this.setAttributeNode(attr); }

    removeAttributeNode(attr) {
      if (!(attr instanceof realm.Attr)) throw new TypeError("an Attr is expected");
      if (attr.ownerElement !== this) throw new DOMException("the attribute is not this element's", "NotFoundError");
      removeKey(this, realm.attrKey(attr));
      return attr;
    }

    matches(selector) {
      if (arguments.length < 1) throw new TypeError("matches takes a selector");
      return checked(engine.matches(door, this[ID], `${selector}`)) === 1;
    }

    closest(selector) {
      if (arguments.length < 1) throw new TypeError("closest takes a selector");
      let at = this;
      while (at !== null && at.nodeType === 1 && !at.matches(selector)) at = at.parentNode;
      return at !== null && at.nodeType === 1 ? at : null;
    }

    /** Give the element a closed shadow root, the root of a new component: what it gives is the only way to that one's tree. */
    attachShadow(init) {
      if (init === null || typeof init !== "object") throw new TypeError("attachShadow takes options");
      if (init.mode !== "open" && init.mode !== "closed") throw new TypeError("the mode is open or closed");
      if (init.mode === "open") throw new DOMException("all shadow trees are closed here", "NotSupportedError");
      if (!this.#type.isHTML) throw new DOMException("a host is an element of HTML", "NotSupportedError");
      const inside = checked(engine.attach(door, this[ID]));
      machine.isWatched = true;
      machine.changed();
      return realm.component(inside, answered()[0]).root;
    }

    insertAdjacentElement(where, element) {
      if (arguments.length < 2) throw new TypeError("insertAdjacentElement takes a place and an element");
      if (!(element instanceof Element)) throw new TypeError("an Element is expected");
      return place(this, `${where}`.toLowerCase(), element);
    }

    insertAdjacentText(where, data) {
      if (arguments.length < 2) throw new TypeError("insertAdjacentText takes a place and a string");
      place(this, `${where}`.toLowerCase(), realm.document.createTextNode(`${data}`));
    }

    insertAdjacentHTML(where, markup) {
      if (arguments.length < 2) throw new TypeError("insertAdjacentHTML takes a place and a string");
      const side = `${where}`.toLowerCase();
      const isInside = side === "afterbegin" || side === "beforeend";
      if (!isInside && side !== "beforebegin" && side !== "afterend") throw new DOMException("no such place", "SyntaxError");
      const context = isInside ? this : this.parentNode;
      if (context === null || context.nodeType === 9) throw new DOMException("there is no element around", "NoModificationAllowedError");
      const isPage = context.nodeType !== 1 || (context.#type.isHTML && context.#type.localName === "html");
      place(this, side, fragmentOf(realm, isPage ? realm.htmlType("body") : context.#type, `${markup}`));
    }
  }

  /** Put a node at one of the four places of insertAdjacentElement. */
  function place(element, where, node) {
    const parent = element.parentNode;
    if (where === "beforeend") return element.appendChild(node);
    if (where === "afterbegin") return element.insertBefore(node, element.firstChild);
    if (where !== "beforebegin" && where !== "afterend") throw new DOMException("no such place", "SyntaxError");
    if (parent === null) return null;
    return parent.insertBefore(node, where === "beforebegin" ? element : element.nextSibling);
  }

  mix(Element, realm.mixins.ParentNode, realm.mixins.ChildNode);
  reflect(realm, Element, { id: "id", className: "class", slot: "slot" });
  realm.Element = Element;
};
