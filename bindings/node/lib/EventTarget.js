"use strict";
// EventTarget of the DOM Standard. Listeners of nodes are the engine's; a target that is no node, such as the window, keeps its own.
const { engine, checked } = require("./engine");
const { typeNumber } = require("./names");

const CAPTURE = 1, ONCE = 2, PASSIVE = 4;

/** The options of addEventListener: flags of the engine, and a signal. */
function options(given) {
  if (given === null || typeof given !== "object") return { flags: given ? CAPTURE : 0 };
  const flags = (given.capture ? CAPTURE : 0) | (given.once ? ONCE : 0) | (given.passive ? PASSIVE : 0);
  return { flags, signal: given.signal };
}

/** Throw if a callback is none. */
function validCallback(callback) {
  if (callback !== null && typeof callback !== "function" && typeof callback !== "object")
    throw new TypeError("a listener is a function or an object");
}

module.exports = (realm) => {
  const { ID, door, machine } = realm;
  const LISTENERS = Symbol("listeners");

  /** Add a listener to a target that is no node. */
  function listen(target, type, callback, flags) {
    const listeners = (target[LISTENERS] ??= []);
    const same = (each) => each.type === type && each.callback === callback && (each.flags & CAPTURE) === (flags & CAPTURE);
    if (!listeners.some(same)) listeners.push({ type, callback, flags, isRemoved: false });
  }

  function unlisten(target, type, callback, flags) {
    const listeners = target[LISTENERS] ?? [];
    const at = listeners.findIndex((each) => each.type === type && each.callback === callback && (each.flags & CAPTURE) === (flags & CAPTURE));
    if (at >= 0) listeners.splice(at, 1)[0].isRemoved = true;
  }

  /** Call the listeners of a target that is no node: capturing ones first, all with the phase of a target. */
  function dispatch(target, event) {
    const all = (target[LISTENERS] ?? []).filter((each) => each.type === event.type);
    const inOrder = [...all.filter((each) => each.flags & CAPTURE), ...all.filter((each) => !(each.flags & CAPTURE))];
    for (const listener of inOrder) {
      if (listener.isRemoved) continue;
      if (listener.flags & ONCE) unlisten(target, listener.type, listener.callback, listener.flags);
      realm.showLocal(event, target, (listener.flags & PASSIVE) !== 0);
      const { callback } = listener;
      realm.guarded(() => (typeof callback === "function" ? callback.call(target, event) : callback.handleEvent(event)));
      if (realm.isStoppedNow(event)) break;
    }
    realm.hideEvent(event);
  }

  realm.EventTarget = class EventTarget {
    /** Call `callback` for events of this type; a second time it adds nothing. Options are `capture`, `once`, `passive` and `signal`. */
    addEventListener(type, callback, given) {
      if (arguments.length < 2) throw new TypeError("addEventListener takes a type and a callback");
      const name = `${type}`;
      const { flags, signal } = options(given);
      if (callback === undefined || callback === null) return;
      validCallback(callback);
      if (signal?.aborted) return;
      const id = this[ID];
      if (id === undefined) listen(this, name, callback, flags);
      else checked(engine.listen(door, id, typeNumber(name), realm.callback(callback), flags));
      if (name === "slotchange") machine.isWatched = true;
      signal?.addEventListener("abort", () => this.removeEventListener(name, callback, given));
    }

    /** Take a listener away, if it is there. */
    removeEventListener(type, callback, given) {
      if (arguments.length < 2) throw new TypeError("removeEventListener takes a type and a callback");
      const name = `${type}`;
      const flags = options(given).flags & CAPTURE;
      if (callback === undefined || callback === null) return;
      validCallback(callback);
      const id = this[ID];
      if (id === undefined) unlisten(this, name, callback, flags);
      else checked(engine.unlisten(door, id, typeNumber(name), realm.callback(callback), flags));
    }

    /** Fire an event here. Gives false exactly where it was cancelled. */
    dispatchEvent(event) {
      if (!(event instanceof realm.Event)) throw new TypeError("an Event is expected");
      const begun = realm.beginEvent(event, this);
      if (begun === null) return realm.endEvent(event, this, true);
      const undo = realm.activation(this, event);
      let isDone = true;
      try {
        const id = this[ID];
        if (id === undefined) dispatch(this, event);
        else isDone = machine.dispatch(realm, id, typeNumber(event.type), begun, realm.relatedOf(event), event);
      } finally {
        isDone = realm.endEvent(event, this, isDone);
      }
      undo?.(isDone);
      return isDone;
    }
  };
};
