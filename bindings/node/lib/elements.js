"use strict";
// The types of elements: what all elements of one name share. A type has the number of its local name in the engine, and the interface.
const { engine, checked } = require("./engine");
const { nameNumber, read, validName } = require("./names");

const SVG = "http://www.w3.org/2000/svg";

module.exports = (realm) => {
  const { door, KEY, HTML_NAMESPACE } = realm;
  const html = new Map();
  const namespaced = new Map();
  const named = new Map(); // by what createElement is given

  function newType(namespaceURI, prefix, localName, Interface) {
    const qualifiedName = prefix === null ? localName : `${prefix}:${localName}`;
    const isHTML = namespaceURI === HTML_NAMESPACE;
    const tagName = isHTML ? qualifiedName.toUpperCase() : qualifiedName;
    return { namespaceURI, prefix, localName, qualifiedName, tagName, isHTML, number: nameNumber(localName), Interface };
  }

  /** The type of HTML's elements of a name. */
  realm.htmlType = (localName) => {
    let type = html.get(localName);
    if (type === undefined) {
      type = newType(HTML_NAMESPACE, null, localName, realm.interfaceOf(localName));
      html.set(localName, type);
    }
    return type;
  };

  /** The type of elements of a namespace. */
  realm.namespacedType = (namespaceURI, prefix, localName) => {
    if (namespaceURI === HTML_NAMESPACE && prefix === null) return realm.htmlType(localName);
    const key = `${namespaceURI}|${prefix}|${localName}`;
    let type = namespaced.get(key);
    if (type === undefined) {
      const isHTML = namespaceURI === HTML_NAMESPACE;
      const Interface = isHTML ? realm.interfaceOf(localName) : namespaceURI === SVG ? realm.svgInterfaceOf(localName) : realm.Element;
      type = newType(namespaceURI, prefix, localName, Interface);
      namespaced.set(key, type);
    }
    if (namespaceURI !== HTML_NAMESPACE) realm.hasForeign = true;
    return type;
  };

  /** The type that createElement means by a name. */
  realm.namedType = (name) => {
    let type = named.get(name);
    if (type === undefined) {
      validName(name);
      type = realm.htmlType(name.toLowerCase());
      named.set(name, type);
    }
    return type;
  };

  /** The type of an element that the engine has made itself, by the name that it holds. */
  realm.typeOf = (held) => realm.htmlType(read(held));

  realm.elementOf = (id, type) => new type.Interface(KEY, id, type);

  /** Make an element. */
  realm.create = (type, document) => {
    const made = new type.Interface(KEY, checked(engine.createElement(door, type.number)), type);
    if (document !== realm.document) realm.moveTo(document, made);
    return made;
  };
};
