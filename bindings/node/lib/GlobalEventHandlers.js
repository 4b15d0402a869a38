"use strict";
// The event handlers of HTML's elements, documents and the window, as `onclick`.
const NAMES = (
  "abort auxclick beforeinput beforematch beforetoggle blur cancel canplay canplaythrough change click close contextlost contextmenu contextrestored " +
  "copy cuechange cut dblclick drag dragend dragenter dragleave dragover dragstart drop durationchange emptied ended error focus formdata input " +
  "invalid keydown keypress keyup load loadeddata loadedmetadata loadstart mousedown mouseenter mouseleave mousemove mouseout mouseover mouseup " +
  "paste pause play playing progress ratechange reset resize scroll scrollend securitypolicyviolation seeked seeking select slotchange stalled " +
  "submit suspend timeupdate toggle touchcancel touchend touchmove touchstart transitioncancel transitionend transitionrun transitionstart " +
  "volumechange waiting wheel"
).split(" ");

module.exports = (realm) => {
  const HANDLERS = Symbol("handlers");

  /** The listener of a handler: it is called with the event, and cancels it by giving false. */
  function listenerOf(target, state) {
    return (event) => {
      if (typeof state.handler !== "function") return;
      const isError = event.type === "error" && event instanceof realm.ErrorEvent && target === realm.window;
      const { message, filename, lineno, colno, error } = event;
      const answer = isError ? state.handler.call(target, message, filename, lineno, colno, error) : state.handler.call(target, event);
      if (isError ? answer === true : answer === false) event.preventDefault();
    };
  }

  /** Set a handler: the first that is set takes its place among the listeners, and keeps it until none is set. */
  function set(target, type, value) {
    const handlers = (target[HANDLERS] ??= {});
    const handler = typeof value === "function" || (typeof value === "object" && value !== null) ? value : null;
    const state = handlers[type];
    if (state !== undefined && handler !== null) state.handler = handler;
    else if (state !== undefined) {
      target.removeEventListener(type, state.listener);
      delete handlers[type];
    } else if (handler !== null) {
      const made = { handler, listener: null };
      made.listener = listenerOf(target, made);
      handlers[type] = made;
      target.addEventListener(type, made.listener);
    }
  }

  class GlobalEventHandlers {}
  for (const type of NAMES)
    Object.defineProperty(GlobalEventHandlers.prototype, `on${type}`, {
      get() { return this[HANDLERS]?.[type]?.handler ?? null; },
      set(value) { set(this, type, value); },
      enumerable: true,
      configurable: true,
    });
  realm.mixins.GlobalEventHandlers = GlobalEventHandlers;
};
