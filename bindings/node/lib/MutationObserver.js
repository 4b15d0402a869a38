"use strict";
// MutationObserver and MutationRecord of the DOM Standard. Records are the engine's, and are told at the checkpoint.
const { engine, checked } = require("./engine");
const { attributeParts, namesNumber, written } = require("./names");

const KINDS = { 2: "childList", 3: "attributes", 4: "characterData" };
const FLAGS = { childList: 1, attributes: 2, characterData: 4, subtree: 8, attributeOldValue: 16, characterDataOldValue: 32, attributeFilter: 64 };

/** The options of observe as flags, and the names of attributes. */
function options(given) {
  const has = (name) => given[name] !== undefined;
  if (given.attributeFilter !== undefined && typeof given.attributeFilter !== "object") throw new TypeError("attributeFilter is a list");
  const names = has("attributeFilter") ? Array.from(given.attributeFilter, (name) => `${name}`) : [];
  const isAttributes = has("attributes") ? Boolean(given.attributes) : has("attributeOldValue") || has("attributeFilter");
  const isData = has("characterData") ? Boolean(given.characterData) : has("characterDataOldValue");
  if (!given.childList && !isAttributes && !isData) throw new TypeError("nothing is to be observed");
  if (!isAttributes && (given.attributeOldValue || has("attributeFilter"))) throw new TypeError("attributes are not to be observed");
  if (!isData && given.characterDataOldValue) throw new TypeError("data are not to be observed");
  const words = { ...given, attributes: isAttributes, characterData: isData, attributeFilter: has("attributeFilter") };
  const flags = Object.keys(FLAGS).reduce((all, name) => (words[name] ? all | FLAGS[name] : all), 0);
  return { flags, names: names.map(written).join(",") };
}

module.exports = (realm) => {
  const { KEY, door, machine, at } = realm;
  const NUMBER = Symbol("observer");
  const FIELDS = ["type", "target", "addedNodes", "removedNodes", "previousSibling", "nextSibling", "attributeName", "attributeNamespace", "oldValue"];

  realm.MutationRecord = class MutationRecord {
    constructor(key) {
      if (key !== KEY) throw new TypeError("Illegal constructor");
    }
  };

  /** A record from the engine's array: kind, target, previous, next, name, old value, count of added, added, removed. */
  function record([kind, target, previous, next, name, oldValue, added, ...nodes]) {
    const parts = name === null ? { localName: null, namespaceURI: null } : attributeParts(name);
    const lists = [nodes.slice(0, added), nodes.slice(added)].map((ids) => realm.staticNodes(realm.all(ids)));
    const values = [KINDS[kind], at(target), ...lists, at(previous), at(next), parts.localName, parts.namespaceURI, oldValue];
    const made = new realm.MutationRecord(KEY);
    FIELDS.forEach((field, place) => Object.defineProperty(made, field, { value: values[place], enumerable: true }));
    return made;
  }

  realm.MutationObserver = class MutationObserver {
    constructor(callback) {
      if (typeof callback !== "function") throw new TypeError("an observer takes a function");
      const number = checked(engine.createObserver(door));
      this[NUMBER] = number;
      realm.observers[number] = { call: (records) => callback.call(this, records.map(record), this) };
    }

    observe(node, given) {
      if (arguments.length < 1) throw new TypeError("observe takes a node and options");
      const id = realm.idOf(node);
      if (given !== undefined && given !== null && typeof given !== "object") throw new TypeError("options are an object");
      const { flags, names } = options(given ?? {});
      checked(engine.observe(door, this[NUMBER], id, flags, namesNumber(names)));
      machine.isWatched = true;
    }

    disconnect() { checked(engine.disconnect(door, this[NUMBER])); }

    takeRecords() {
      const records = engine.takeRecords(door, this[NUMBER]);
      return (typeof records === "number" ? checked(records) : records).map(record);
    }
  };
};
