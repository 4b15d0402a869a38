"use strict";
// CharacterData of the DOM Standard: what Text and Comment share. Offsets and counts are in code units.
const { engine, checked } = require("./engine");
const { mix } = require("./mixins");

module.exports = (realm) => {
  const { ID, door, machine } = realm;

  class CharacterData extends realm.Node {
    get data() { return checked(engine.data(door, this[ID])); }

    set data(value) {
      checked(engine.setData(door, this[ID], value === null ? "" : `${value}`));
      machine.altered();
    }

    get length() { return this.data.length; }
    get nodeValue() { return this.data; }
    set nodeValue(value) { this.data = value ?? ""; }
    get textContent() { return this.data; }
    set textContent(value) { this.data = value ?? ""; }

    substringData(offset, count) {
      if (arguments.length < 2) throw new TypeError("substringData takes an offset and a count");
      const data = this.data;
      const start = offset >>> 0;
      if (start > data.length) throw new DOMException("the offset is past the end", "IndexSizeError");
      return data.slice(start, start + (count >>> 0));
    }

    appendData(data) {
      if (arguments.length < 1) throw new TypeError("appendData takes a string");
      this.replaceData(this.length, 0, data);
    }

    insertData(offset, data) {
      if (arguments.length < 2) throw new TypeError("insertData takes an offset and a string");
      this.replaceData(offset, 0, data);
    }

    deleteData(offset, count) {
      if (arguments.length < 2) throw new TypeError("deleteData takes an offset and a count");
      this.replaceData(offset, count, "");
    }

    replaceData(offset, count, data) {
      if (arguments.length < 3) throw new TypeError("replaceData takes an offset, a count and a string");
      checked(engine.replaceData(door, this[ID], offset >>> 0, count >>> 0, `${data}`));
      machine.altered();
    }
  }
  mix(CharacterData, realm.mixins.ChildNode);
  realm.CharacterData = CharacterData;
};
