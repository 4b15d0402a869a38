"use strict";
// HTMLInputElement of HTML: value and checkedness with their dirty flags, and what a click does to a checkbox or a radio button.
const { reflect } = require("./reflection");

const TYPES = new Set((
  "hidden text search tel url email password date month week time datetime-local number range color checkbox radio file submit image reset button"
).split(" "));
const BY_ATTRIBUTE = new Set(["hidden", "submit", "image", "reset", "button"]);
const CHECKED = new Set(["checkbox", "radio"]);
const ONE_LINE = new Set(["text", "search", "tel", "url", "email", "password"]);

/** A value as an input of this type keeps it. */
function sanitized(type, value) {
  if (ONE_LINE.has(type)) return value.replace(/[\r\n]/g, "");
  if (type === "number" || type === "range") return /^-?(?:\d+(?:\.\d+)?|\.\d+)(?:[eE][-+]?\d+)?$/.test(value) ? value : "";
  return value;
}

module.exports = (realm) => {
  const VALUE = Symbol("value");
  const CHECKEDNESS = Symbol("checkedness");
  const SELECTION = Symbol("selection");

  /** The other radio buttons of a group. */
  function group(input) {
    const name = input.getAttribute("name");
    if (input.type !== "radio" || !name) return [];
    const around = input.form ?? input.getRootNode();
    if (around.querySelectorAll === undefined) return [];
    return Array.from(around.querySelectorAll("input")).filter(
      (each) => each !== input && each.type === "radio" && each.name === name && each.form === input.form);
  }

  const isChecked = (input) => input[CHECKEDNESS] ?? input.hasAttribute("checked");

  /** Set checkedness, past a property that a program may have put over `checked`. */
  function check(input, value) {
    input[CHECKEDNESS] = value;
    if (value) for (const other of group(input)) other[CHECKEDNESS] = false;
  }

  class HTMLInputElement extends realm.HTMLElement {
    get type() {
      const type = this.getAttribute("type")?.toLowerCase();
      return TYPES.has(type) ? type : "text";
    }
    set type(value) { this.setAttribute("type", `${value}`); }

    get value() {
      const { type } = this;
      if (type === "file") return "";
      if (CHECKED.has(type)) return this.getAttribute("value") ?? "on";
      if (BY_ATTRIBUTE.has(type)) return this.getAttribute("value") ?? "";
      return sanitized(type, this[VALUE] ?? this.getAttribute("value") ?? "");
    }

    set value(given) {
      const value = given === null ? "" : `${given}`;
      const { type } = this;
      if (CHECKED.has(type) || BY_ATTRIBUTE.has(type)) this.setAttribute("value", value);
      else if (type !== "file") this[VALUE] = sanitized(type, value);
      else if (value !== "") throw new DOMException("the value of a file input can only be emptied", "InvalidStateError");
      this[SELECTION] = undefined;
    }

    get checked() { return isChecked(this); }

    set checked(value) { check(this, Boolean(value)); }

    get form() { return this.closest("form"); }
    get files() { return null; }
    get indeterminate() { return this[realm.INDETERMINATE] === true; }
    set indeterminate(value) { this[realm.INDETERMINATE] = Boolean(value); }
    get valueAsNumber() { return this.type === "number" || this.type === "range" ? parseFloat(this.value) : NaN; }
    set valueAsNumber(value) { this.value = Number.isNaN(value) ? "" : `${value}`; }
    get selectionStart() { return ONE_LINE.has(this.type) ? (this[SELECTION] ?? [this.value.length])[0] : null; }
    set selectionStart(value) { this.setSelectionRange(value, Math.max(value, this.selectionEnd)); }
    get selectionEnd() { return ONE_LINE.has(this.type) ? (this[SELECTION] ?? [0, this.value.length])[1] : null; }
    set selectionEnd(value) { this.setSelectionRange(Math.min(value, this.selectionStart), value); }

    setSelectionRange(start, end) {
      if (!ONE_LINE.has(this.type)) throw new DOMException("an input of this type has no selection", "InvalidStateError");
      const length = this.value.length;
      const last = Math.min(end >>> 0, length);
      this[SELECTION] = [Math.min(start >>> 0, last), last];
    }

    select() { if (ONE_LINE.has(this.type)) this[SELECTION] = [0, this.value.length]; }

    /** What a clone has beside attributes. */
    [realm.CLONED](made) {
      if (this[VALUE] !== undefined) made[VALUE] = this[VALUE];
      if (this[CHECKEDNESS] !== undefined) made[CHECKEDNESS] = this[CHECKEDNESS];
    }
  }
  reflect(realm, HTMLInputElement, {
    defaultValue: "value", defaultChecked: ["checked", "flag"], name: "name", placeholder: "placeholder", disabled: ["disabled", "flag"],
    readOnly: ["readonly", "flag"], required: ["required", "flag"], multiple: ["multiple", "flag"], accept: "accept", alt: "alt", src: "src",
    autocomplete: "autocomplete", pattern: "pattern", min: "min", max: "max", step: "step", size: ["size", "number", 20], width: ["width", "number"],
    height: ["height", "number"], maxLength: ["maxlength", "number", -1], minLength: ["minlength", "number", -1], formNoValidate: ["formnovalidate", "flag"],
    dirName: "dirname", useMap: "usemap", align: "align",
  });
  realm.HTMLInputElement = HTMLInputElement;
  realm.setInterface(HTMLInputElement, "input");

  /** What a click at a checkbox or a radio button does before its listeners are called. Gives what is to be done after them. */
  realm.activation = (target, event) => {
    if (event.type !== "click" || !(target instanceof HTMLInputElement) || !CHECKED.has(target.type) || target.disabled) return undefined;
    const before = target[CHECKEDNESS];
    const wasChecked = isChecked(target);
    const { indeterminate } = target;
    const other = group(target).find(isChecked);
    check(target, target.type === "radio" ? true : !wasChecked);
    target.indeterminate = false;
    return (isDone) => {
      if (!isDone) {
        target[CHECKEDNESS] = before;
        target.indeterminate = indeterminate;
        if (other !== undefined) check(other, true);
      } else if (target.isConnected && isChecked(target) !== wasChecked) {
        target.dispatchEvent(new realm.Event("input", { bubbles: true, composed: true }));
        target.dispatchEvent(new realm.Event("change", { bubbles: true }));
      }
    };
  };
};
