"use strict";
// DOMImplementation of the DOM Standard, without document types.
module.exports = (realm) => {
  realm.DOMImplementation = class DOMImplementation {
    constructor(key) {
      if (key !== realm.KEY) throw new TypeError("Illegal constructor");
    }

    hasFeature() { return true; }

    /** A document of HTML with html, head, body, and with a title if one is given. */
    createHTMLDocument(title) {
      const made = new realm.Document();
      realm.setSkeleton(made);
      if (title !== undefined) made.title = title;
      return made;
    }

    createDocument(namespace, qualifiedName) {
      if (arguments.length < 2) throw new TypeError("createDocument takes a namespace and a name");
      const made = new realm.Document();
      if (qualifiedName !== null && `${qualifiedName}` !== "") made.appendChild(made.createElementNS(namespace, qualifiedName));
      return made;
    }
  };
};
