"use strict";
// Event of the DOM Standard. While an event is under way, what stops and cancels it is the engine's; each owner that is called has a view of its own.
const { engine, checked } = require("./engine");

const BUBBLES = 8, CANCELABLE = 16, COMPOSED = 32;
const HIDDEN = -1;

/** A copy of plain data, for another owner: what is anything else becomes null. An object is plain if its prototype is null or an Object.prototype. */
function plain(value, depth = 0) {
  if (value === null || (typeof value !== "object" && typeof value !== "function" && typeof value !== "symbol")) return value;
  if (typeof value !== "object" || depth > 64) return null;
  const prototype = Object.getPrototypeOf(value);
  if (Array.isArray(value)) return value.map((item) => plain(item, depth + 1));
  if (prototype !== null && Object.getPrototypeOf(prototype) !== null) return null;
  return Object.fromEntries(Object.keys(value).map((key) => [key, plain(value[key], depth + 1)]));
}

/** What an event has beside what its class shows. */
class State {
  target = null;
  current = null;
  related = null;
  relatedId = null;
  phase = 0;
  path = null; // owners and numbers by turns
  call = HIDDEN; // the place of its callback among the owner's calls under way
  isLocal = false; // whether the callback is of a target that is no node
  isPassive = false;
  isCanceled = false;
  isStopped = false;
  isStoppedNow = false;
  isDispatched = false;
  isReady = true;
  kind = "Event"; // the interface that views of it have, and what these show
  shows = null;
  time = performance.now();

  constructor(type, flags) {
    this.type = type;
    this.flags = flags;
  }
}

function flagsOf(init) {
  if (init === undefined || init === null) return 0;
  if (typeof init !== "object" && typeof init !== "function") throw new TypeError("the options of an event are an object");
  return (init.bubbles ? BUBBLES : 0) | (init.cancelable ? CANCELABLE : 0) | (init.composed ? COMPOSED : 0);
}

module.exports = (realm) => {
  const { door } = realm;
  let stateOf;

  /** The engine numbers an owner's calls from the innermost one on. */
  const number = (state) => realm.called - state.call - 1;
  const isEngines = (state) => state.call !== HIDDEN && !state.isLocal;

  realm.Event = class Event {
    #state; // private: a path has the numbers of others' nodes

    static {
      stateOf = (event) => event.#state;
    }

    constructor(type, init) {
      if (arguments.length < 1) throw new TypeError("an event has a type");
      this.#state = new State(`${type}`, flagsOf(init));
    }

    get type() { return this.#state.type; }
    get bubbles() { return (this.#state.flags & BUBBLES) !== 0; }
    get cancelable() { return (this.#state.flags & CANCELABLE) !== 0; }
    get composed() { return (this.#state.flags & COMPOSED) !== 0; }
    get target() { return this.#state.target; }
    get srcElement() { return this.#state.target; }
    get currentTarget() { return this.#state.current; }
    get eventPhase() { return this.#state.phase; }
    get timeStamp() { return this.#state.time; }
    get isTrusted() { return false; }
    get cancelBubble() { return this.#state.isStopped; }
    set cancelBubble(value) { if (value) this.stopPropagation(); }
    get returnValue() { return !this.defaultPrevented; }
    set returnValue(value) { if (!value) this.preventDefault(); }

    get defaultPrevented() {
      const state = this.#state;
      return state.isCanceled || (isEngines(state) && checked(engine.prevented(door, number(state))) === 1);
    }

    /** The targets from the innermost outwards, as far as the listener that is called may know of them. */
    composedPath() {
      const state = this.#state;
      if (state.call === HIDDEN) return [];
      if (state.isLocal) return [state.current];
      const path = [];
      for (let at = 0; at < state.path.length; at += 2) path.push(realm.shown(state.path[at], state.path[at + 1]));
      return path;
    }

    preventDefault() {
      const state = this.#state;
      if ((state.flags & CANCELABLE) === 0 || state.isPassive) return;
      if (!isEngines(state)) state.isCanceled = true;
      else {
        checked(engine.prevent(door, number(state)));
        state.isCanceled = checked(engine.prevented(door, number(state))) === 1;
      }
    }

    stopPropagation() {
      const state = this.#state;
      state.isStopped = true;
      if (isEngines(state)) checked(engine.stop(door, number(state)));
    }

    stopImmediatePropagation() {
      const state = this.#state;
      state.isStopped = state.isStoppedNow = true;
      if (isEngines(state)) checked(engine.stopNow(door, number(state)));
    }

    /** Make an event anew that createEvent has given. */
    initEvent(type, bubbles = false, cancelable = false) {
      if (arguments.length < 1) throw new TypeError("an event has a type");
      if (this.#state.isDispatched) return;
      const { kind, shows } = this.#state;
      this.#state = Object.assign(new State(`${type}`, flagsOf({ bubbles, cancelable })), { kind, shows });
    }
  };

  for (const [at, name] of ["NONE", "CAPTURING_PHASE", "AT_TARGET", "BUBBLING_PHASE"].entries())
    for (const holder of [realm.Event, realm.Event.prototype]) Object.defineProperty(holder, name, { value: at, enumerable: true });

  Object.assign(realm, eventSteps(realm, stateOf));
};

/** What dispatches do with an event. */
function eventSteps(realm, stateOf) {
  return {
    stateOf,
    unready(event) {
      stateOf(event).isReady = false;
      return event;
    },
    relatedOf: (event) => stateOf(event).relatedId,
    hasPath: (event) => stateOf(event).path !== null,
    isStoppedNow: (event) => stateOf(event).isStoppedNow,

    /** Begin a dispatch at a target. Gives the flags, or null where the event is stopped before. */
    beginEvent(event, target) {
      const state = stateOf(event);
      if (state.isDispatched || !state.isReady) throw new DOMException("the event is under way, or not initialized", "InvalidStateError");
      state.isDispatched = true;
      state.target = target;
      return state.isStopped ? null : state.flags;
    },

    /** End a dispatch: gives whether it was not cancelled. */
    endEvent(event, target, isDone) {
      const state = stateOf(event);
      state.isDispatched = state.isStopped = state.isStoppedNow = false;
      state.isCanceled ||= !isDone;
      state.target = target;
      state.path = null;
      return !state.isCanceled;
    },

    /** Show an event to a listener of a node. */
    showEvent(event, call, phase, target, current, related, path) {
      const state = stateOf(event);
      state.call = call;
      state.isLocal = false;
      state.phase = phase;
      state.target = target;
      state.current = current;
      state.related = related;
      state.path ??= path;
    },

    /** Show an event to a listener of a target that is no node. */
    showLocal(event, target, isPassive) {
      const state = stateOf(event);
      state.call = 0;
      state.isLocal = true;
      state.phase = 2;
      state.target = state.current = target;
      state.isPassive = isPassive;
    },

    hideEvent(event) {
      const state = stateOf(event);
      state.call = HIDDEN;
      state.isLocal = state.isPassive = false;
      state.phase = 0;
      state.current = null;
    },

    /** This owner's view of another's event, by what that one has, or of the engine's own. */
    viewOf(state, flags) {
      const init = { bubbles: (flags & BUBBLES) !== 0, cancelable: (flags & CANCELABLE) !== 0, composed: (flags & COMPOSED) !== 0 };
      if (state === null) return new realm.Event("slotchange", init);
      const { type, kind, shows, time } = state;
      const view = new realm[kind](type, { ...init, ...plain(shows) });
      stateOf(view).time = time;
      return view;
    },
  };
}
