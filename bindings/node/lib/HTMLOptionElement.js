"use strict";
// HTMLOptionElement of HTML: whether it is selected is its attribute's, until a program says so.
const { reflect } = require("./reflection");

module.exports = (realm) => {
  const SELECTED = Symbol("selected");

  class HTMLOptionElement extends realm.HTMLElement {
    get text() { return this.textContent.trim().replace(/[\t\n\f\r ]+/g, " "); }
    set text(value) { this.textContent = value; }
    get value() { return this.getAttribute("value") ?? this.text; }
    set value(value) { this.setAttribute("value", `${value}`); }
    get label() { return this.getAttribute("label") || this.text; }
    set label(value) { this.setAttribute("label", `${value}`); }
    get form() { return this.closest("form"); }
    get index() { return Math.max(0, Array.from(this.closest("select")?.options ?? []).indexOf(this)); }

    get selected() {
      const select = this.closest("select");
      return select === null ? realm.isSelected(this) : realm.selectedOf(select).includes(this);
    }

    set selected(value) {
      const select = this.closest("select");
      if (value && select !== null && !select.multiple) for (const each of select.options) each[SELECTED] = false;
      this[SELECTED] = Boolean(value);
    }

    [realm.CLONED](made) { if (this[SELECTED] !== undefined) made[SELECTED] = this[SELECTED]; }
  }
  reflect(realm, HTMLOptionElement, { disabled: ["disabled", "flag"], defaultSelected: ["selected", "flag"] });
  realm.HTMLOptionElement = HTMLOptionElement;
  realm.setInterface(HTMLOptionElement, "option");
  realm.isSelected = (option) => option[SELECTED] ?? option.hasAttribute("selected");
  realm.setSelected = (option, value) => {
    option[SELECTED] = value;
  };
};
