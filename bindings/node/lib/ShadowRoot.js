"use strict";
// ShadowRoot of the DOM Standard: the root of a component's tree, which is closed. Its `ownerDocument` is the component's own, and it has no `host`: the
// host is a node of whoever attached the root.
const { setInner, inner } = require("./markup");

module.exports = (realm) => {
  realm.ShadowRoot = class ShadowRoot extends realm.DocumentFragment {
    constructor(key, id) {
      if (key !== realm.KEY) throw new TypeError("Illegal constructor");
      super(key, id);
    }

    get mode() { return "closed"; }
    get host() { return null; }
    get delegatesFocus() { return false; }
    get slotAssignment() { return "named"; }
    get activeElement() { return realm.focused !== null && this.contains(realm.focused) ? realm.focused : null; }
    get innerHTML() { return inner(this); }
    set innerHTML(value) { setInner(realm, this, realm.htmlType("div"), value === null ? "" : `${value}`); }
  };
};
