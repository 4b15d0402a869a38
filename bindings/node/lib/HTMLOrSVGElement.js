"use strict";
// What elements of HTML and of SVG share: style, dataset and focus. The declarations of `style` are the library cssstyle's.
module.exports = (realm) => {
  const STYLE = Symbol("style");
  const DATASET = Symbol("dataset");
  realm.focused = null;

  /** The prototype of this owner's declarations: a copy of the library's, so that no other owner has it. */
  function prototype() {
    const { CSSStyleDeclaration } = require("cssstyle");
    realm.stylePrototype ??= Object.create(Object.prototype, Object.getOwnPropertyDescriptors(CSSStyleDeclaration.prototype));
    return realm.stylePrototype;
  }

  /** The declarations of an element's attribute `style`. A change of them is written to the attribute. */
  function declarations(element) {
    const { CSSStyleDeclaration } = require("cssstyle");
    const state = { isWriting: false, style: null };
    const style = new CSSStyleDeclaration((text) => {
      if (state.isWriting) return;
      state.isWriting = true;
      element.setAttribute("style", text);
      state.isWriting = false;
    });
    state.style = Object.setPrototypeOf(style, prototype());
    read(state, element);
    return state;
  }

  function read(state, element) {
    state.isWriting = true;
    state.style.cssText = element.getAttribute("style") ?? "";
    state.isWriting = false;
  }

  /** Note that an attribute has changed: a style that is shown is read anew. */
  realm.attributeChanged = (element, key) => {
    if (key !== "style") return;
    const state = element[STYLE];
    if (state !== undefined && !state.isWriting) read(state, element);
  };

  /** Fire an event of focus. */
  function tell(type, bubbles, target, related) {
    if (target !== null) target.dispatchEvent(new realm.FocusEvent(type, { bubbles, composed: true, relatedTarget: related }));
  }

  /** Move the focus to an element or to none. */
  function move(to) {
    const from = realm.focused !== null && realm.focused.isConnected ? realm.focused : null;
    if (from === to) return;
    realm.focused = to;
    tell("blur", false, from, to);
    tell("focusout", true, from, to);
    tell("focus", false, to, from);
    tell("focusin", true, to, from);
  }

  const isFocusable = (element) =>
    /^(?:input|select|textarea|button|iframe)$/.test(element.localName) ? !element.disabled
      : (/^(?:a|area)$/.test(element.localName) && element.hasAttribute("href")) || element.hasAttribute("tabindex");

  realm.mixins.HTMLOrSVGElement = class HTMLOrSVGElement {
    get style() { return (this[STYLE] ??= declarations(this)).style; }
    set style(value) { this.style.cssText = `${value}`; }
    get dataset() { return (this[DATASET] ??= new realm.DOMStringMap(realm.KEY, this)); }
    get tabIndex() {
      const value = parseInt(this.getAttribute("tabindex"), 10);
      return Number.isNaN(value) ? (isFocusable(this) ? 0 : -1) : value;
    }
    set tabIndex(value) { this.setAttribute("tabindex", `${Number(value) | 0}`); }
    focus() { if (this.isConnected && isFocusable(this)) move(this); }
    blur() { if (realm.focused === this) move(null); }
  };
};
