"use strict";
// What one owner has: the page, or a component. Each owner has interfaces of its own, so that no prototype is shared, and one lasting object for each of
// its nodes, in an array by number.
const { engine, NONE, checked, refuse } = require("./engine");
const { defineInterfaces } = require("./interfaces");

const PAGE = 0;

/** The kinds of nodes in the engine. */
const ELEMENT = 1, TEXT = 3, COMMENT = 8, DOCUMENT = 9, FRAGMENT = 11, SHADOW_ROOT = 12;

class Realm {
  constructor(machine, door, owner) {
    this.machine = machine;
    this.door = door;
    this.owner = owner;
    this.ID = Symbol("id"); // the key of a node's number: another owner's nodes do not have it
    this.KEY = Symbol("made by the engine");
    this.mixins = {};
    this.nodes = [];
    this.others = new Map();
    this.callbacks = [];
    this.callbackNumbers = new WeakMap();
    this.observers = [];
    this.isReporting = false;
    this.called = 0; // calls of this owner that are under way
    this.HTML_NAMESPACE = "http://www.w3.org/1999/xhtml";
    this.CLONED = Symbol("cloned"); // what an element gives its clone beside attributes
    this.INDETERMINATE = Symbol("indeterminate");
    this.hasForeign = false; // whether there are elements of other namespaces than HTML's
    this.hasNamespacedAttributes = false;
    machine.realms[owner] = this;
    this.at = (id) => (id >= 0 ? this.nodes[id] ?? this.found(id) : id === NONE ? null : refuse(id));
    this.component = (inside, owner) => new Realm(machine, inside, owner);
    defineInterfaces(this);
    this.root = owner === PAGE ? null : this.at(0);
    this.document = owner === PAGE ? this.at(0) : new this.Document();
    this.hasDocuments = false;
    if (owner !== PAGE) this.setSkeleton(this.document); // beside its tree, for programs that expect a body
    this.openWindow();
  }

  /** The number of a node of this owner. A value that is no node is a TypeError, another owner's node a WrongDocumentError. */
  idOf(value) {
    const id = value === null || value === undefined ? undefined : value[this.ID];
    if (id !== undefined) return id;
    if (value instanceof this.Attr) throw new DOMException("an attribute stands in no tree", "HierarchyRequestError");
    if (value instanceof this.ForeignNode || (value !== null && typeof value === "object" && typeof value.nodeType === "number"))
      throw new DOMException("the node is another owner's, or another document's", "WrongDocumentError");
    throw new TypeError("a Node is expected");
  }

  /** The object of a node that the engine itself has made, as by a split. */
  found(id) {
    const kind = checked(engine.kind(this.door, id));
    if (kind === TEXT) return new this.Text(this.KEY, id);
    if (kind === COMMENT) return new this.Comment(this.KEY, id);
    if (kind === FRAGMENT) return new this.DocumentFragment(this.KEY, id);
    if (kind === SHADOW_ROOT) return new this.ShadowRoot(this.KEY, id);
    if (kind === DOCUMENT) return new this.Document(this.KEY, id);
    return kind === ELEMENT ? this.elementOf(id, this.typeOf(engine.elementName(this.door, id))) : null;
  }

  /** What this owner is shown of a node of any owner: its own node, or a ForeignNode, which can only be compared. */
  shown(owner, number) {
    if (owner === NONE) return null;
    if (owner === this.owner) return this.at(number);
    const key = owner * 2 ** 32 + number;
    let other = this.others.get(key);
    if (other === undefined) {
      other = Object.freeze(new this.ForeignNode(this.KEY));
      this.others.set(key, other);
    }
    return other;
  }

  /** The nodes of a list of numbers. */
  all(ids) {
    return ids.map(this.at);
  }

  /** The number of a callback, by which the engine knows it. */
  callback(callback) {
    let number = this.callbackNumbers.get(callback);
    if (number === undefined) {
      number = this.callbacks.push(callback) - 1;
      this.callbackNumbers.set(callback, number);
    }
    return number;
  }

  /** Run a callback. What it throws is reported, and not thrown. */
  guarded(call) {
    try {
      call();
    } catch (error) {
      this.report(error);
    }
  }

  /** Run a callback as a call of this owner that is under way in the engine. */
  within(call) {
    this.called++;
    this.guarded(call);
    this.called--;
  }

  /** Call a listener, as the engine asks for. */
  callListener(label, event, phase, target, current, related, path) {
    this.showEvent(event, this.called, phase, target, current, related, path);
    const before = this.currentEvent;
    this.currentEvent = event;
    const callback = this.callbacks[label];
    this.within(() => (typeof callback === "function" ? callback.call(current, event) : handled(callback, event)));
    this.currentEvent = before;
    this.hideEvent(event);
  }

  /** Call an observer with its records. */
  callObserver(number, records) {
    this.within(() => this.observers[number].call(records));
  }

  /** Call a microtask. */
  callTask(label) {
    const callback = this.callbacks[label];
    this.callbacks[label] = undefined;
    this.within(() => callback());
  }

  /** Report what a callback has thrown: an `error` event at the window, and on standard error if nobody cancels that. */
  report(error) {
    if (this.isReporting) return console.error(error); // thrown by who is told of an error
    const event = new this.ErrorEvent("error", { error, message: String(error?.message ?? error), cancelable: true });
    this.isReporting = true;
    const isDone = this.window.dispatchEvent(event);
    this.isReporting = false;
    return isDone ? console.error(error) : undefined;
  }
}

/** Call a listener that is an object. */
function handled(listener, event) {
  const handle = listener.handleEvent;
  if (typeof handle !== "function") throw new TypeError("the listener has no handleEvent");
  return handle.call(listener, event);
}

module.exports = { Realm };
