"use strict";
// A document among Node's globals, of this package or of jsdom, for programs that expect one there; and what scripts of clients tell.
const KEPT = new Set(["console", "performance", "setTimeout", "clearTimeout", "setInterval", "clearInterval", "queueMicrotask", "undefined", "globalThis",
  "Object", "Array", "Promise", "Error", "Map", "Set", "Symbol", "Proxy", "Reflect", "JSON", "Math", "Function"]);

/** Put jsdom's window among the globals. */
function jsdomWindow() {
  const { JSDOM, VirtualConsole } = require("jsdom");
  const { window } = new JSDOM("<!DOCTYPE html><html><head></head><body></body></html>", { pretendToBeVisual: true, virtualConsole: new VirtualConsole() });
  window.document.removeChild(window.document.doctype);
  for (const name of Object.getOwnPropertyNames(window)) {
    if (KEPT.has(name) || name in globalThis && /^[a-z]/.test(name) && name !== "navigator") continue;
    if (Object.getOwnPropertyDescriptor(Object.prototype, name) || name.startsWith("_")) continue;
    try {
      Object.defineProperty(globalThis, name, { value: window[name], writable: true, configurable: true });
    } catch {
      // a name that Node keeps for itself
    }
  }
  for (const name of ["Event", "CustomEvent", "EventTarget", "Node", "Element", "HTMLElement", "MutationObserver", "Text", "Comment", "Range", "document",
    "window"])
    Object.defineProperty(globalThis, name, { value: window[name], writable: true, configurable: true });
  Object.defineProperty(globalThis, "event", { get: () => window.event, configurable: true });
  return window;
}

/** The window of a kind of document: "owlantimony" or "jsdom". */
function world(kind) {
  return kind === "jsdom" ? jsdomWindow() : require("../global").window;
}

/** A node and all below it as a line: names, attributes, properties that inputs have, texts. */
function show(node) {
  if (node === null || node === undefined) return String(node);
  if (node.nodeType === 3) return JSON.stringify(node.data);
  if (node.nodeType === 8) return `<!--${node.data}-->`;
  const children = Array.from(node.childNodes, show).join(" ");
  if (node.nodeType !== 1) return `#${node.nodeType}(${children})`;
  const attributes = Array.from(node.attributes, (attr) => ` ${attr.name}=${JSON.stringify(attr.value)}`).join("");
  const state = ["value", "checked", "selected"].filter((name) => /^(?:INPUT|SELECT|OPTION|TEXTAREA)$/.test(node.tagName) && name in node);
  const properties = state.map((name) => ` .${name}=${JSON.stringify(node[name])}`).join("");
  const space = node.namespaceURI === "http://www.w3.org/1999/xhtml" ? "" : `{${node.namespaceURI}}`;
  return `${space}${node.tagName}${attributes}${properties}(${children})`;
}

/** Wait until promise jobs, timers of 0 ms and what they queue are over. */
async function settled(rounds = 10) {
  for (let round = 0; round < rounds; round++) await new Promise((resolve) => setTimeout(resolve, round === 0 ? 0 : 5));
}

module.exports = { world, show, settled };
