"use strict";
// DOMStringMap of HTML: `dataset`, the attributes data-* by names without hyphens.
const DATA = /^data-[^A-Z]*$/;

/** The attribute of a name of the map. */
function attributeOf(name) {
  if (/-[a-z]/.test(name)) throw new DOMException("a hyphen stands before a small letter", "SyntaxError");
  return "data-" + name.replace(/[A-Z]/g, (letter) => "-" + letter.toLowerCase());
}

const nameOf = (attribute) => attribute.slice(5).replace(/-([a-z])/g, (_, letter) => letter.toUpperCase());

/** The names of the map. */
function namesOf(element) {
  return element.getAttributeNames().filter((name) => DATA.test(name)).map(nameOf);
}

module.exports = (realm) => {
  realm.DOMStringMap = class DOMStringMap {
    constructor(key, element) {
      if (key !== realm.KEY) throw new TypeError("Illegal constructor");
      const valueOf = (name) => (typeof name === "string" && !/-[a-z]/.test(name) ? element.getAttribute(attributeOf(name)) : null);
      return new Proxy(this, {
        get: (target, name) => valueOf(name) ?? Reflect.get(target, name),
        has: (target, name) => valueOf(name) !== null || Reflect.has(target, name),
        set(target, name, value) {
          if (typeof name === "symbol") return Reflect.set(target, name, value);
          element.setAttribute(attributeOf(name), `${value}`);
          return true;
        },
        deleteProperty(target, name) {
          if (valueOf(name) !== null) element.removeAttribute(attributeOf(name));
          return true;
        },
        ownKeys: () => namesOf(element),
        getOwnPropertyDescriptor(target, name) {
          const value = valueOf(name);
          return value === null ? undefined : { value, writable: true, enumerable: true, configurable: true };
        },
        defineProperty: (target, name, given) => "value" in given && Reflect.set(element.dataset, name, given.value),
      });
    }
  };
};
