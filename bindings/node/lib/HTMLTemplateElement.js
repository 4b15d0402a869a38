"use strict";
// HTMLTemplateElement of HTML: its contents stand in a fragment beside it.
module.exports = (realm) => {
  const CONTENT = Symbol("content");

  realm.HTMLTemplateElement = class HTMLTemplateElement extends realm.HTMLElement {
    get content() { return (this[CONTENT] ??= realm.document.createDocumentFragment()); }

    [realm.CLONED](made, deep) {
      if (deep && this[CONTENT] !== undefined) made[CONTENT] = realm.clone(this[CONTENT], realm.document, true);
    }
  };
  realm.setInterface(realm.HTMLTemplateElement, "template");
};
