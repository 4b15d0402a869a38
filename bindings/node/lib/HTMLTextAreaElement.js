"use strict";
// HTMLTextAreaElement of HTML.
const { reflect } = require("./reflection");

module.exports = (realm) => {
  const VALUE = Symbol("value");

  class HTMLTextAreaElement extends realm.HTMLElement {
    get type() { return "textarea"; }
    get defaultValue() { return this.textContent; }
    set defaultValue(value) { this.textContent = value; }
    get value() { return (this[VALUE] ?? this.textContent).replace(/\r\n?/g, "\n"); }
    set value(value) { this[VALUE] = value === null ? "" : `${value}`; }
    get textLength() { return this.value.length; }
    get form() { return this.closest("form"); }
    get selectionStart() { return this.value.length; }
    get selectionEnd() { return this.value.length; }
    [realm.CLONED](made) { if (this[VALUE] !== undefined) made[VALUE] = this[VALUE]; }
  }
  reflect(realm, HTMLTextAreaElement, {
    name: "name", placeholder: "placeholder", disabled: ["disabled", "flag"], readOnly: ["readonly", "flag"], required: ["required", "flag"],
    rows: ["rows", "number", 2], cols: ["cols", "number", 20], wrap: "wrap", autocomplete: "autocomplete", maxLength: ["maxlength", "number", -1],
    minLength: ["minlength", "number", -1], dirName: "dirname",
  });
  realm.HTMLTextAreaElement = HTMLTextAreaElement;
  realm.setInterface(HTMLTextAreaElement, "textarea");
};
