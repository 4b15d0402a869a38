"use strict";
// The interfaces of an owner, in an order in which each stands after the one that it extends.
const definitions = [
  require("./EventTarget"),
  require("./Event"),
  require("./UIEvent"),
  require("./NodeList"),
  require("./HTMLCollection"),
  require("./NodeFilter"),
  require("./Node"),
  require("./ChildNode"),
  require("./ParentNode"),
  require("./GlobalEventHandlers"),
  require("./HTMLOrSVGElement"),
  require("./ForeignNode"),
  require("./Attr"),
  require("./NamedNodeMap"),
  require("./DOMTokenList"),
  require("./DOMStringMap"),
  require("./CharacterData"),
  require("./Text"),
  require("./Comment"),
  require("./DocumentFragment"),
  require("./ShadowRoot"),
  require("./Element"),
  require("./HTMLElement"),
  require("./HTMLElements"),
  require("./HTMLInputElement"),
  require("./HTMLTextAreaElement"),
  require("./HTMLOptionElement"),
  require("./HTMLSelectElement"),
  require("./HTMLTemplateElement"),
  require("./HTMLSlotElement"),
  require("./SVGElement"),
  require("./elements"),
  require("./DOMImplementation"),
  require("./Document"),
  require("./Range"),
  require("./NodeIterator"),
  require("./TreeWalker"),
  require("./MutationObserver"),
  require("./Window"),
];

/** Define all interfaces of a realm: each definition puts what it makes into the realm. */
function defineInterfaces(realm) {
  for (const define of definitions) define(realm);
}

module.exports = { defineInterfaces };
