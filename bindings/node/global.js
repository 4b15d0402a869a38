"use strict";
// Puts a document, its window and the interfaces among Node's globals, for programs that want them there. Gives the document, and `restore`.
const { openDocument } = require("./index");

const document = openDocument();
const window = document.defaultView;
const before = new Map();

for (const name of new Set([...Object.getOwnPropertyNames(window), "addEventListener", "removeEventListener", "dispatchEvent", "getComputedStyle",
  "requestAnimationFrame", "cancelAnimationFrame"])) {
  before.set(name, Object.getOwnPropertyDescriptor(globalThis, name));
  if (["console", "performance", "setTimeout", "clearTimeout", "setInterval", "clearInterval", "queueMicrotask"].includes(name)) continue;
  const value = window[name];
  const bound = typeof value === "function" && /^[a-z]/.test(name) ? value.bind(window) : value;
  Object.defineProperty(globalThis, name, { value: bound, writable: true, configurable: true });
}
before.set("event", Object.getOwnPropertyDescriptor(globalThis, "event"));
Object.defineProperty(globalThis, "event", { get: () => window.event, configurable: true });

/** Take them away again. */
function restore() {
  for (const [name, descriptor] of before)
    if (descriptor === undefined) delete globalThis[name];
    else Object.defineProperty(globalThis, name, descriptor);
}

module.exports = { document, window, restore };
