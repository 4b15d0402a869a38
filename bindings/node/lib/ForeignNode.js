"use strict";
// A node of another owner, as events and slots show it: one object for one node, which can be compared and nothing else.
module.exports = (realm) => {
  realm.ForeignNode = class ForeignNode {
    constructor(key) {
      if (key !== realm.KEY) throw new TypeError("Illegal constructor");
    }
  };
};
