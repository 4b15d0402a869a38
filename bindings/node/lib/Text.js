"use strict";
// Text of the DOM Standard.
const { engine, checked } = require("./engine");

module.exports = (realm) => {
  const { ID, KEY, door, machine, at } = realm;

  realm.Text = class Text extends realm.CharacterData {
    constructor(data = "", id) {
      super(KEY, data === KEY ? id : checked(engine.createText(door, `${data}`)));
    }

    get nodeType() { return 3; }
    get nodeName() { return "#text"; }

    /** The slot to which the Text is assigned: none is shown, as all trees are closed. */
    get assignedSlot() { return null; }

    /** The data of the Texts that stand next to each other here. */
    get wholeText() {
      let first = this;
      while (first.previousSibling?.nodeType === 3) first = first.previousSibling;
      let text = "";
      for (let node = first; node?.nodeType === 3; node = node.nextSibling) text += node.data;
      return text;
    }

    splitText(offset) {
      if (arguments.length < 1) throw new TypeError("splitText takes an offset");
      const made = at(checked(engine.splitText(door, this[ID], offset >>> 0)));
      machine.changed();
      return made;
    }
  };
};
