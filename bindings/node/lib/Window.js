"use strict";
// The window of an owner's document: its interfaces by name, the document, and what programs ask a window for. It is no part of events' paths.
const { mix } = require("./mixins");

const FRAME = 16;

/** What of Node's globals a window shows as its own. */
const SHARED = ["setTimeout", "clearTimeout", "setInterval", "clearInterval", "queueMicrotask", "performance", "console", "AbortController", "AbortSignal",
  "DOMException", "URL", "URLSearchParams", "structuredClone"];

/** An address, as programs that read it expect one. There is no navigation. */
const LOCATION = Object.freeze({
  href: "about:blank", protocol: "about:", host: "", hostname: "", port: "", pathname: "blank", search: "", hash: "", origin: "null",
  toString: () => "about:blank",
});

/** A history that nobody can move in. */
const HISTORY = Object.freeze({ length: 1, state: null });

module.exports = (realm) => {
  class Window extends realm.EventTarget {
    constructor(key) {
      if (key !== realm.KEY) throw new TypeError("Illegal constructor");
      super();
    }

    get event() { return realm.currentEvent; }
    getComputedStyle(element) { return element.style; }
    requestAnimationFrame(callback) { return setTimeout(() => callback(performance.now()), FRAME); }
    cancelAnimationFrame(frame) { clearTimeout(frame); }
  }
  mix(Window, realm.mixins.GlobalEventHandlers);
  realm.Window = Window;

  /** Make the window, when the realm has its document. */
  realm.openWindow = () => {
    const window = new Window(realm.KEY);
    realm.window = window;
    for (const name of SHARED) if (name in globalThis) window[name] = globalThis[name];
    for (const [name, value] of Object.entries(realm))
      if (/^[A-Z][a-z]|^(?:HTML|SVG|DOM|UI)/.test(name) && typeof value === "function")
        Object.defineProperty(window, name, { value, writable: true, configurable: true });
    const navigator = { userAgent: "Owlantimony", platform: "", language: "en" };
    Object.assign(window, { document: realm.document, location: LOCATION, history: HISTORY, navigator });
    Object.assign(window, { window, self: window, parent: window, top: window });
    delete window.ForeignNode;
  };
};
