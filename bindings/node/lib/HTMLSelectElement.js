"use strict";
// HTMLSelectElement of HTML: which options are selected is found when it is asked for.
const { reflect } = require("./reflection");

module.exports = (realm) => {
  const OPTIONS = Symbol("options");
  const EMPTIED = Symbol("emptied"); // the count of options when a program has chosen none

  /** The options of a list that are selected. One that shows a single option has the last that is selected, or else the first that is not disabled. */
  function selected(select) {
    const options = Array.from(select.options);
    const all = options.filter(realm.isSelected);
    if (select.multiple) return all;
    if (all.length > 0) return all.slice(-1);
    if (select.size > 1 || select[EMPTIED] === options.length) return [];
    return options.filter((option) => !option.disabled && option.parentNode.disabled !== true).slice(0, 1);
  }

  class HTMLSelectElement extends realm.HTMLElement {
    get type() { return this.multiple ? "select-multiple" : "select-one"; }
    get form() { return this.closest("form"); }
    get options() { return (this[OPTIONS] ??= realm.liveElements(() => Array.from(this.querySelectorAll("option")))); }
    get length() { return this.options.length; }
    get selectedOptions() { return realm.liveElements(() => selected(this)); }
    item(index) { return this.options.item(index); }
    namedItem(name) { return this.options.namedItem(name); }

    get selectedIndex() {
      const [first] = selected(this);
      return first === undefined ? -1 : Array.from(this.options).indexOf(first);
    }

    set selectedIndex(index) {
      const options = Array.from(this.options);
      options.forEach((option, at) => realm.setSelected(option, at === Number(index)));
      this[EMPTIED] = Number(index) in options ? undefined : options.length;
    }

    get value() { return selected(this)[0]?.value ?? ""; }

    set value(value) {
      const options = Array.from(this.options);
      this.selectedIndex = options.findIndex((option) => option.value === `${value}`);
    }

    /** Put an option before another one, or at its place by number, or last. */
    add(option, before = null) {
      const child = typeof before === "number" ? this.options[before] ?? null : before;
      (child?.parentNode ?? this).insertBefore(option, child);
    }

    /** Remove the option at a place, or the list itself. */
    remove(index) {
      if (arguments.length === 0) super.remove();
      else this.options[index]?.remove();
    }
  }
  reflect(realm, HTMLSelectElement, {
    name: "name", disabled: ["disabled", "flag"], multiple: ["multiple", "flag"], required: ["required", "flag"], size: ["size", "number"],
    autocomplete: "autocomplete",
  });
  realm.selectedOf = selected;
  realm.HTMLSelectElement = HTMLSelectElement;
  realm.setInterface(HTMLSelectElement, "select");
};
