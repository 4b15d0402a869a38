"use strict";
// Properties that reflect attributes, as HTML has them.

/** How a property is read from its attribute, and written to it: of a string, of a flag, and of a number with its value where there is none. */
const KINDS = {
  string: (name) => ({
    get() { return this.getAttribute(name) ?? ""; },
    set(value) { this.setAttribute(name, `${value}`); },
  }),
  flag: (name) => ({
    get() { return this.getAttribute(name) !== null; },
    set(value) {
      if (value) this.setAttribute(name, "");
      else this.removeAttribute(name);
    },
  }),
  number: (name, missing) => ({
    get() {
      const value = this.getAttribute(name);
      return value !== null && /^[\t\n\f\r ]*[-+]?\d+/.test(value) ? parseInt(value, 10) : missing;
    },
    set(value) { this.setAttribute(name, `${Number(value) | 0}`); },
  }),
};

/** Define properties of an interface: each with its attribute, or with an attribute, a kind and the value of a missing number. */
function reflect(realm, Interface, properties) {
  for (const [property, given] of Object.entries(properties)) {
    const [name, kind = "string", missing = 0] = [given].flat();
    Object.defineProperty(Interface.prototype, property, { ...KINDS[kind](name, missing), enumerable: true, configurable: true });
  }
}

module.exports = { reflect };
