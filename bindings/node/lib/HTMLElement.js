"use strict";
// HTMLElement of HTML, as far as it speaks of the document: no layout, no editing.
const { mix } = require("./mixins");
const { reflect } = require("./reflection");

module.exports = (realm) => {
  class HTMLElement extends realm.Element {
    /** Fire a click, as a user's without a mouse. */
    click() {
      if (this.disabled === true) return;
      this.dispatchEvent(new realm.MouseEvent("click", { bubbles: true, cancelable: true, composed: true }));
    }
  }
  mix(HTMLElement, realm.mixins.GlobalEventHandlers, realm.mixins.HTMLOrSVGElement);
  reflect(realm, HTMLElement, {
    title: "title", lang: "lang", dir: "dir", accessKey: "accesskey", hidden: ["hidden", "flag"], nonce: "nonce", autofocus: ["autofocus", "flag"],
    spellcheck: "spellcheck", inputMode: "inputmode", enterKeyHint: "enterkeyhint",
  });
  Object.defineProperty(HTMLElement.prototype, "draggable", {
    get() { return this.getAttribute("draggable") === "true"; },
    set(value) { this.setAttribute("draggable", `${Boolean(value)}`); },
    enumerable: true,
    configurable: true,
  });
  realm.HTMLElement = HTMLElement;
  realm.HTMLUnknownElement = class HTMLUnknownElement extends HTMLElement {};
};
