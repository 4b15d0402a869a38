"use strict";
// Document of the DOM Standard. The page has one, and each component one of its own, which stands beside its tree.
const { engine, checked } = require("./engine");
const { mix } = require("./mixins");
const { extract, validName } = require("./names");
const { setPage } = require("./markup");

const EVENTS = {
  event: "Event", events: "Event", htmlevents: "Event", svgevents: "Event", customevent: "CustomEvent", uievent: "UIEvent", uievents: "UIEvent",
  mouseevent: "MouseEvent", mouseevents: "MouseEvent", keyboardevent: "KeyboardEvent", focusevent: "FocusEvent", compositionevent: "CompositionEvent",
};

module.exports = (realm) => {
  const { ID, KEY, door, machine } = realm;
  const IMPLEMENTATION = Symbol("implementation");
  realm.hasDocuments = false;

  class Document extends realm.Node {
    constructor(key, id) {
      super(KEY, key === KEY ? id : checked(engine.createDocument(door)));
      if (key !== KEY) realm.hasDocuments = true;
    }

    get nodeType() { return 9; }
    get nodeName() { return "#document"; }
    get ownerDocument() { return null; }
    get textContent() { return null; }
    set textContent(value) {}
    get defaultView() { return this === realm.document ? realm.window : null; }
    get doctype() { return null; }
    get implementation() { return (this[IMPLEMENTATION] ??= new realm.DOMImplementation(KEY)); }
    get documentElement() { return this.firstElementChild; }
    get head() { return part(this, ["head"]); }
    get body() { return part(this, ["body", "frameset"]); }
    get activeElement() { return realm.focused !== null && this.contains(realm.focused) ? realm.focused : this.body; }
    get URL() { return "about:blank"; }
    get documentURI() { return "about:blank"; }
    get compatMode() { return "CSS1Compat"; }
    get characterSet() { return "UTF-8"; }
    get charset() { return "UTF-8"; }
    get contentType() { return "text/html"; }
    get readyState() { return "complete"; }
    get hidden() { return false; }
    get visibilityState() { return "visible"; }
    get location() { return this.defaultView?.location ?? null; }
    hasFocus() { return this === realm.document; }

    get title() {
      const found = this.getElementsByTagName("title")[0];
      return found === undefined ? "" : found.textContent.trim().replace(/[\t\n\f\r ]+/g, " ");
    }

    set title(value) {
      const found = this.getElementsByTagName("title")[0] ?? this.head?.appendChild(this.createElement("title"));
      if (found !== undefined) found.textContent = `${value}`;
    }

    createElement(name) {
      if (arguments.length < 1) throw new TypeError("createElement takes a name");
      return realm.create(realm.namedType(`${name}`), this);
    }

    createElementNS(namespace, qualifiedName) {
      if (arguments.length < 2) throw new TypeError("createElementNS takes a namespace and a name");
      const { namespaceURI, prefix, localName } = extract(namespace === null ? null : `${namespace}`, `${qualifiedName}`);
      return realm.create(realm.namespacedType(namespaceURI, prefix, localName), this);
    }

    createTextNode(data) {
      if (arguments.length < 1) throw new TypeError("createTextNode takes a string");
      return own(this, new realm.Text(data));
    }

    createComment(data) {
      if (arguments.length < 1) throw new TypeError("createComment takes a string");
      return own(this, new realm.Comment(data));
    }

    createDocumentFragment() { return own(this, new realm.DocumentFragment()); }

    createAttribute(name) {
      if (arguments.length < 1) throw new TypeError("createAttribute takes a name");
      validName(`${name}`);
      return realm.newAttr(null, `${name}`.toLowerCase());
    }

    createAttributeNS(namespace, qualifiedName) {
      if (arguments.length < 2) throw new TypeError("createAttributeNS takes a namespace and a name");
      const { namespaceURI } = extract(namespace === null ? null : `${namespace}`, `${qualifiedName}`);
      return realm.newAttr(namespaceURI, `${qualifiedName}`);
    }

    createEvent(name) {
      if (arguments.length < 1) throw new TypeError("createEvent takes the name of an interface");
      const kind = EVENTS[`${name}`.toLowerCase()];
      if (kind === undefined) throw new DOMException("no such event", "NotSupportedError");
      return realm.unready(new realm[kind](""));
    }

    createRange() { return new realm.Range(); }
    createNodeIterator(root, show, filter) { return new realm.NodeIterator(KEY, root, show, filter); }
    createTreeWalker(root, show, filter) { return new realm.TreeWalker(KEY, root, show, filter); }

    importNode(node, deep = false) {
      realm.idOf(node);
      if (node.nodeType === 9) throw new DOMException("a document is not imported", "NotSupportedError");
      return realm.clone(node, this, Boolean(deep));
    }

    adoptNode(node) {
      const id = realm.idOf(node);
      if (node.nodeType === 9) throw new DOMException("a document is not adopted", "NotSupportedError");
      if (node instanceof realm.ShadowRoot) throw new DOMException("a shadow root stays with its host", "HierarchyRequestError");
      checked(engine.adopt(door, this[ID], id));
      machine.changed();
      return node;
    }

    getElementById(id) {
      if (arguments.length < 1) throw new TypeError("getElementById takes an id");
      return realm.byId(this, `${id}`);
    }

    getElementsByName(name) {
      return realm.liveNodes(() => Array.from(this.querySelectorAll("[name]")).filter((each) => each.getAttribute("name") === `${name}`));
    }
  }

  /** The part of a page with one of these names. */
  function part(document, names) {
    const html = document.documentElement;
    if (html === null || html.localName !== "html") return null;
    return Array.from(html.children).find((child) => names.includes(child.localName)) ?? null;
  }

  /** Give a new node a document other than the realm's. */
  function own(document, node) {
    if (document !== realm.document) realm.moveTo(document, node);
    return node;
  }

  realm.moveTo = (document, node) => checked(engine.adopt(door, document[ID], node[ID]));

  /** Give a document html, head and body. */
  realm.setSkeleton = (document) => {
    const html = document.appendChild(document.createElement("html"));
    html.appendChild(document.createElement("head"));
    html.appendChild(document.createElement("body"));
  };
  realm.setPage = (markup) => setPage(realm, realm.document, markup);

  mix(Document, realm.mixins.ParentNode, realm.mixins.GlobalEventHandlers);
  realm.Document = Document;
  realm.HTMLDocument = Document;
};
