"use strict";
// Comment of the DOM Standard.
const { engine, checked } = require("./engine");

module.exports = (realm) => {
  const { KEY, door } = realm;

  realm.Comment = class Comment extends realm.CharacterData {
    constructor(data = "", id) {
      super(KEY, data === KEY ? id : checked(engine.createComment(door, `${data}`)));
    }

    get nodeType() { return 8; }
    get nodeName() { return "#comment"; }
  };
};
