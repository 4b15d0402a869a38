"use strict";
// The events that carry more than a type: CustomEvent of the DOM Standard, ErrorEvent of HTML, and those of UI Events, which programs fire.
const KEYS = { ctrlKey: false, shiftKey: false, altKey: false, metaKey: false };
const POSITION = { screenX: 0, screenY: 0, clientX: 0, clientY: 0, pageX: 0, pageY: 0, button: 0, buttons: 0 };

/** Each event's name, what it extends, and what it shows with its value where none is given. */
const EVENTS = [
  ["CustomEvent", "Event", { detail: null }],
  ["ErrorEvent", "Event", { message: "", filename: "", lineno: 0, colno: 0, error: null }],
  ["UIEvent", "Event", { detail: 0, which: 0 }],
  ["MouseEvent", "UIEvent", { ...POSITION, ...KEYS, relatedTarget: null }],
  ["WheelEvent", "MouseEvent", { deltaX: 0, deltaY: 0, deltaZ: 0, deltaMode: 0 }],
  ["KeyboardEvent", "UIEvent", { key: "", code: "", location: 0, repeat: false, isComposing: false, keyCode: 0, charCode: 0, ...KEYS }],
  ["FocusEvent", "UIEvent", { relatedTarget: null }],
  ["InputEvent", "UIEvent", { data: null, inputType: "", isComposing: false }],
  ["CompositionEvent", "UIEvent", { data: "" }],
  ["SubmitEvent", "Event", { submitter: null }],
];

module.exports = (realm) => {
  const { stateOf } = realm;

  for (const [kind, base, values] of EVENTS) {
    const names = Object.keys(values);
    const made = {
      [kind]: class extends realm[base] {
        constructor(type, init) {
          if (arguments.length < 1) throw new TypeError("an event has a type");
          super(type, init);
          const state = stateOf(this);
          state.kind = kind;
          state.shows = { ...state.shows };
          for (const name of names) if (name !== "relatedTarget") state.shows[name] = init?.[name] ?? values[name];
          if ("relatedTarget" in values && init?.relatedTarget) {
            state.relatedId = realm.idOf(init.relatedTarget);
            state.related = init.relatedTarget;
          }
        }
      },
    }[kind];
    for (const name of names) {
      const get = name === "relatedTarget" ? function () { return stateOf(this).related; } : function () { return stateOf(this).shows[name]; };
      Object.defineProperty(made.prototype, name, { get, enumerable: true, configurable: true });
    }
    realm[kind] = made;
  }

  Object.defineProperty(realm.UIEvent.prototype, "view", { get: () => realm.window, enumerable: true, configurable: true });

  /** initCustomEvent of the Standard. */
  realm.CustomEvent.prototype.initCustomEvent = function (type, bubbles, cancelable, detail = null) {
    this.initEvent(type, bubbles, cancelable);
    stateOf(this).shows.detail = detail;
  };
};
