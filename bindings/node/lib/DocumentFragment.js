"use strict";
// DocumentFragment of the DOM Standard.
const { engine, checked } = require("./engine");
const { mix } = require("./mixins");

module.exports = (realm) => {
  const { KEY, door } = realm;

  class DocumentFragment extends realm.Node {
    constructor(key, id) {
      super(KEY, key === KEY ? id : checked(engine.createFragment(door)));
    }

    get nodeType() { return 11; }
    get nodeName() { return "#document-fragment"; }

    getElementById(id) {
      if (arguments.length < 1) throw new TypeError("getElementById takes an id");
      return realm.byId(this, `${id}`);
    }
  }
  mix(DocumentFragment, realm.mixins.ParentNode);
  for (const name of ["getElementsByTagName", "getElementsByTagNameNS", "getElementsByClassName"]) delete DocumentFragment.prototype[name];
  realm.DocumentFragment = DocumentFragment;
};
