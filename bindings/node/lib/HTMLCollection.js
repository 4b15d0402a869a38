"use strict";
// HTMLCollection of the DOM Standard: a live list of elements.
const { liveList } = require("./lists");

/** The first element with this id, or of HTML with this name. */
function named(elements, name) {
  return elements.find((element) => name !== "" && (element.getAttribute("id") === name || element.getAttribute("name") === name));
}

module.exports = (realm) => {
  class HTMLCollection {
    constructor(key) {
      if (key !== realm.KEY) throw new TypeError("Illegal constructor");
    }

    item(index) {
      return this[index >>> 0] ?? null;
    }

    namedItem(name) {
      return named(Array.from(this), `${name}`) ?? null;
    }
  }
  HTMLCollection.prototype[Symbol.iterator] = Array.prototype[Symbol.iterator];
  realm.HTMLCollection = HTMLCollection;

  /** A live list: `ask` gives its elements. */
  realm.liveElements = liveList(realm, HTMLCollection, named).made;
};
