"use strict";
// A `vm` context of an owner's own: its global object has that owner's document, window and interfaces, and built-in objects of its own. So programs of the
// page and of a component that expect a `document` among the globals run side by side, and neither has the other's. It keeps apart programs that do not
// attack: the objects of the DOM belong to one realm of JavaScript, and who climbs from one of them to `Function` is in that realm.
const vm = require("node:vm");

/** What a global object does not take from the window: the context has its own. */
const OWN = new Set(["globalThis", "undefined", "eval"]);

/** Make the context of a document: the page's, or a component's, which is its root's `ownerDocument`. */
function contextOf(document) {
  const window = document.defaultView;
  if (window === null) throw new TypeError("the document has no window");
  const globals = {};
  for (let holder = window; holder !== Object.prototype && holder !== null; holder = Object.getPrototypeOf(holder))
    for (const name of Object.getOwnPropertyNames(holder)) {
      if (name in globals || name === "constructor" || OWN.has(name)) continue;
      const value = window[name];
      globals[name] = typeof value === "function" && /^[a-z]/.test(name) ? value.bind(window) : value;
    }
  Object.assign(globals, { window: globals, self: globals, parent: globals, top: globals });
  Object.defineProperty(globals, "event", { get: () => window.event });
  const context = vm.createContext(globals);
  for (const name of ["window", "self", "parent", "top"]) vm.runInContext(`${name} = globalThis`, context);
  return context;
}

/** Run a program in a context. Gives the value of its last statement. */
function run(context, source, filename) {
  return vm.runInContext(source, context, { filename });
}

module.exports = { contextOf, run };
