"use strict";
// Text of HTML into nodes, by parse5, and nodes into text, by HTML's algorithm for fragments.
const VOID = new Set(("area base basefont bgsound br col embed frame hr img input keygen link meta param source track wbr").split(" "));
const RAW = new Set("style script xmp iframe noembed noframes plaintext".split(" "));
const NAMESPACES = { xml: "http://www.w3.org/XML/1998/namespace", xlink: "http://www.w3.org/1999/xlink", xmlns: "http://www.w3.org/2000/xmlns/" };
const HTML = "http://www.w3.org/1999/xhtml", SVG = "http://www.w3.org/2000/svg", MATHML = "http://www.w3.org/1998/Math/MathML";

const TEXT_ESCAPES = { "&": "&amp;", "\u00a0": "&nbsp;", "<": "&lt;", ">": "&gt;" };
const VALUE_ESCAPES = { "&": "&amp;", "\u00a0": "&nbsp;", '"': "&quot;" };
const escapedText = (data) => data.replace(/[&\u00a0<>]/g, (unit) => TEXT_ESCAPES[unit]);
const escapedValue = (value) => value.replace(/[&\u00a0"]/g, (unit) => VALUE_ESCAPES[unit]);

function attributeText({ name, value }) {
  return ` ${name}="${escapedValue(value)}"`;
}

function attributeName(attr) {
  const prefix = Object.keys(NAMESPACES).find((each) => NAMESPACES[each] === attr.namespaceURI);
  if (prefix === undefined) return attr.name;
  return prefix === "xmlns" && attr.localName === "xmlns" ? "xmlns" : `${prefix}:${attr.localName}`;
}

/** The name of an element in its tags. */
function tagName(element) {
  return [HTML, SVG, MATHML].includes(element.namespaceURI) || element.prefix === null ? element.localName : `${element.prefix}:${element.localName}`;
}

/** An element's text, with all below it. */
function outer(node) {
  if (node.nodeType === 8) return `<!--${node.data}-->`;
  if (node.nodeType === 3) {
    const parent = node.parentNode;
    return parent !== null && parent.nodeType === 1 && RAW.has(parent.localName) ? node.data : escapedText(node.data);
  }
  const name = tagName(node);
  const attributes = Array.from(node.attributes, (attr) => attributeText({ name: attributeName(attr), value: attr.value })).join("");
  if (VOID.has(name) && node.namespaceURI === HTML) return `<${name}${attributes}>`;
  return `<${name}${attributes}>${inner(node)}</${name}>`;
}

/** The text of all below a node; of a template of its contents. */
function inner(node) {
  let text = "";
  for (let child = (node.content ?? node).firstChild; child !== null; child = child.nextSibling) text += outer(child);
  return text;
}

/** Put what parse5 has made below a node. */
function build(realm, parent, children) {
  for (const child of children) {
    if (child.nodeName === "#text") parent.appendChild(realm.document.createTextNode(child.value));
    else if (child.nodeName === "#comment") parent.appendChild(realm.document.createComment(child.data));
    else if (child.tagName !== undefined) parent.appendChild(element(realm, child));
  }
}

function element(realm, given) {
  const type = given.namespaceURI === HTML ? realm.htmlType(given.tagName) : realm.namespacedType(given.namespaceURI, null, given.tagName);
  const made = realm.create(type, realm.document);
  for (const { name, prefix, namespace, value } of given.attrs) {
    if (namespace === undefined) realm.setKey(made, name, value);
    else made.setAttributeNS(namespace, prefix ? `${prefix}:${name}` : name, value);
  }
  build(realm, given.content === undefined ? made : made.content, (given.content ?? given).childNodes);
  return made;
}

/** A fragment of what a text of HTML has, inside an element of a type. */
function fragmentOf(realm, type, markup) {
  const { parseFragment, defaultTreeAdapter } = require("parse5");
  const context = defaultTreeAdapter.createElement(type.localName, type.namespaceURI, []);
  const fragment = realm.document.createDocumentFragment();
  build(realm, fragment, parseFragment(context, markup, { scriptingEnabled: false }).childNodes);
  return fragment;
}

/** Put what a text of HTML has in the place of a node's children. */
function setInner(realm, node, type, markup) {
  const into = node.content ?? node;
  into.textContent = "";
  if (markup !== "" || type.localName === "html") into.appendChild(fragmentOf(realm, type, markup));
}

/** Put a page of HTML into a document. */
function setPage(realm, document, markup) {
  const { parse } = require("parse5");
  build(realm, document, parse(markup, { scriptingEnabled: false }).childNodes);
}

module.exports = { inner, outer, setInner, fragmentOf, setPage };
