"use strict";
// What live lists share: the nodes, which are asked for once while the trees stand, and access by index.
const INDEX = /^(?:0|[1-9][0-9]*)$/;

/** A class of live lists: `named`, if given, finds the node of a list by a name. `made` makes one: `ask` gives its nodes, and they are right while the
 * machine's count of that name stands. */
function liveList(realm, Base, named) {
  const { machine } = realm;
  const LIST = Symbol("list");

  /** The nodes, asked for anew if trees have changed. */
  function nodes(list) {
    const state = list[LIST];
    if (state.count !== machine[state.of]) {
      state.nodes = state.ask();
      state.count = machine[state.of];
    }
    return state.nodes;
  }

  const handler = {
    get(target, key, receiver) {
      if (typeof key === "symbol") return Reflect.get(target, key, target);
      const first = key.charCodeAt(0);
      if (first >= 48 && first <= 57 && INDEX.test(key)) return nodes(target)[key];
      if (key === "length") return nodes(target).length;
      if (key in target) return Reflect.get(target, key, receiver);
      return named?.(nodes(target), key) ?? undefined;
    },
    has: (target, key) => key === "length" || (typeof key === "string" && INDEX.test(key) ? Number(key) < nodes(target).length : key in target),
    ownKeys: (target) => [...nodes(target).keys()].map(String).concat(Reflect.ownKeys(target)),
    getOwnPropertyDescriptor(target, key) {
      if (typeof key !== "string" || !INDEX.test(key)) return Reflect.getOwnPropertyDescriptor(target, key);
      const value = nodes(target)[key];
      return value === undefined ? undefined : { value, writable: false, enumerable: true, configurable: true };
    },
    set: (target, key, value, receiver) => (typeof key === "string" && INDEX.test(key) ? false : Reflect.set(target, key, value, target)),
    defineProperty: (target, key, given) => (typeof key === "string" && INDEX.test(key) ? false : Reflect.defineProperty(target, key, given)),
  };

  class LiveList extends Base {
    constructor(key, ask, of) {
      super(key);
      Object.defineProperty(this, LIST, { value: { ask, of, nodes: [], count: 0 } });
      return new Proxy(this, handler);
    }
  }
  return { made: (ask, of = "version") => new LiveList(realm.KEY, ask, of) };
}

module.exports = { liveList };
