"use strict";
// ParentNode of the DOM Standard, and the queries that Document and Element share.
const { engine, checked, listed } = require("./engine");
const { written } = require("./names");

const NAME = /^[A-Za-z_][A-Za-z0-9_-]*$/;

module.exports = (realm) => {
  const { ID, door } = realm;
  const CHILDREN = Symbol("children");
  const HTML = realm.HTML_NAMESPACE;

  const query = (node, selector) => listed(() => engine.query(door, node[ID], selector));

  /** Strings and nodes as one node: the only one, or a fragment of them. */
  realm.joined = (nodes) => {
    const all = nodes.map((node) => (node !== null && typeof node === "object" ? node : realm.document.createTextNode(`${node}`)));
    if (all.length === 1) return all[0];
    all.forEach((node) => realm.idOf(node));
    const fragment = realm.document.createDocumentFragment();
    for (const node of all) fragment.appendChild(node);
    return fragment;
  };

  /** The first element below with an id. */
  realm.byId = (node, id) => {
    if (id === "") return null;
    const all = NAME.test(id) ? query(node, `#${id}`) : query(node, "[id]").filter((each) => realm.at(each).getAttribute("id") === id);
    return all.length === 0 ? null : realm.at(all[0]);
  };

  /** The elements below that have all of these classes. */
  function byClasses(node, classes) {
    if (classes.length === 0) return [];
    if (classes.every((name) => NAME.test(name))) return realm.all(query(node, `.${classes.join(".")}`));
    return realm.all(query(node, "[class]")).filter((each) => classes.every((name) => each.classList.contains(name)));
  }

  /** The elements below with a qualified name: HTML elements by its small letters. */
  function byName(node, name) {
    if (name === "*") return realm.all(query(node, "*"));
    const small = name.toLowerCase();
    if (!realm.hasForeign) return realm.all(query(node, written(small)));
    return realm.all(query(node, "*")).filter((each) => realm.qualified(each) === (each.namespaceURI === HTML ? small : name));
  }

  realm.mixins.ParentNode = class ParentNode {
    get children() {
      return (this[CHILDREN] ??= realm.liveElements(() => Array.from(this.childNodes).filter((node) => node.nodeType === 1), "structure"));
    }

    get childElementCount() { return this.children.length; }

    get firstElementChild() {
      let at = this.firstChild;
      while (at !== null && at.nodeType !== 1) at = at.nextSibling;
      return at;
    }

    get lastElementChild() {
      let at = this.lastChild;
      while (at !== null && at.nodeType !== 1) at = at.previousSibling;
      return at;
    }

    append(...nodes) { if (nodes.length > 0) this.appendChild(realm.joined(nodes)); }
    prepend(...nodes) { if (nodes.length > 0) this.insertBefore(realm.joined(nodes), this.firstChild); }

    replaceChildren(...nodes) {
      const node = realm.joined(nodes);
      if (node.nodeType !== 11 && checked(engine.contains(door, realm.idOf(node), this[ID])))
        throw new DOMException("the node contains this one", "HierarchyRequestError");
      while (this.firstChild !== null) this.removeChild(this.firstChild);
      this.appendChild(node);
    }

    querySelector(selector) {
      if (arguments.length < 1) throw new TypeError("querySelector takes a selector");
      const found = query(this, `${selector}`);
      return found.length === 0 ? null : realm.at(found[0]);
    }

    querySelectorAll(selector) {
      if (arguments.length < 1) throw new TypeError("querySelectorAll takes a selector");
      return realm.staticNodes(realm.all(query(this, `${selector}`)));
    }

    getElementsByTagName(name) {
      if (arguments.length < 1) throw new TypeError("getElementsByTagName takes a name");
      return realm.liveElements(() => byName(this, `${name}`));
    }

    getElementsByTagNameNS(namespace, name) {
      if (arguments.length < 2) throw new TypeError("getElementsByTagNameNS takes a namespace and a name");
      const wanted = namespace === "" ? null : namespace;
      const fits = (each) => (wanted === "*" || each.namespaceURI === wanted) && (name === "*" || each.localName === `${name}`);
      return realm.liveElements(() => realm.all(query(this, "*")).filter(fits));
    }

    getElementsByClassName(names) {
      if (arguments.length < 1) throw new TypeError("getElementsByClassName takes names");
      const classes = `${names}`.split(/[\t\n\f\r ]+/).filter((name) => name !== "");
      return realm.liveElements(() => byClasses(this, classes));
    }
  };
};
