"use strict";
// Events during their dispatch. The expected values are those of the DOM Standard, 2.7 to 2.10, and of HTML for what listeners throw.
const test = require("node:test");
const assert = require("node:assert");
const { page, checkpoint, thrown } = require("./support");

/** A page with three nested elements, each with listeners that tell. */
function nested(told) {
  const { document, window, body } = page("<main><ul><li>item</li></ul></main>");
  const [main, ul, li] = ["main", "ul", "li"].map((name) => document.querySelector(name));
  const tell = (word) => (event) => told.push(`${word} ${event.eventPhase} ${event.target.localName} ${event.currentTarget.localName}`);
  return { document, window, body, main, ul, li, tell };
}

test("capturing listeners are called inwards, then the target's, then the others outwards", () => {
  const told = [];
  const { window, main, ul, li, tell } = nested(told);
  for (const node of [main, ul, li]) {
    node.addEventListener("e", tell("bubble"));
    node.addEventListener("e", tell("capture"), true);
  }
  assert.strictEqual(li.dispatchEvent(new window.Event("e", { bubbles: true })), true);
  assert.deepStrictEqual(told, ["capture 1 li main", "capture 1 li ul", "capture 2 li li", "bubble 2 li li", "bubble 3 li ul", "bubble 3 li main"]);
});

test("a listener stops and cancels while it is called", () => {
  const told = [];
  const { window, main, ul, li, tell } = nested(told);
  li.addEventListener("e", (event) => { event.preventDefault(); told.push(event.defaultPrevented); });
  ul.addEventListener("e", (event) => { event.stopPropagation(); told.push("stops"); });
  ul.addEventListener("e", tell("beside"));
  main.addEventListener("e", tell("outside"));
  const event = new window.Event("e", { bubbles: true, cancelable: true });
  assert.strictEqual(li.dispatchEvent(event), false);
  assert.strictEqual(event.defaultPrevented, true);
  assert.strictEqual(event.returnValue, false);
  assert.deepStrictEqual(told, [true, "stops", "beside 3 li ul"]);
});

test("stopImmediatePropagation keeps those beside it from being called, and passive listeners cancel nothing", () => {
  const told = [];
  const { window, li, tell } = nested(told);
  li.addEventListener("e", (event) => { event.preventDefault(); told.push(event.defaultPrevented); }, { passive: true });
  li.addEventListener("e", (event) => event.stopImmediatePropagation());
  li.addEventListener("e", tell("beside"));
  assert.strictEqual(li.dispatchEvent(new window.Event("e", { cancelable: true })), true);
  assert.deepStrictEqual(told, [false]);
});

test("a listener that is removed by an earlier one is not called, one that is added here is not either", () => {
  const told = [];
  const { window, li, tell } = nested(told);
  const second = tell("second");
  li.addEventListener("e", () => {
    li.removeEventListener("e", second);
    li.addEventListener("e", tell("added"));
  });
  li.addEventListener("e", second);
  li.dispatchEvent(new window.Event("e"));
  assert.deepStrictEqual(told, []);
  li.dispatchEvent(new window.Event("e"));
  assert.deepStrictEqual(told, ["added 2 li li"]);
});

test("once, the same listener twice, handleEvent, null, a signal", () => {
  const told = [];
  const { window, li } = nested(told);
  const object = { handleEvent(event) { told.push(this === object && event.type); } };
  const plain = () => told.push("plain");
  li.addEventListener("e", object, { once: true });
  li.addEventListener("e", plain);
  li.addEventListener("e", plain);
  li.addEventListener("e", null);
  const controller = new AbortController();
  li.addEventListener("e", () => told.push("signalled"), { signal: controller.signal });
  li.dispatchEvent(new window.Event("e"));
  controller.abort();
  li.dispatchEvent(new window.Event("e"));
  assert.deepStrictEqual(told, ["e", "plain", "signalled", "plain"]);
});

test("a listener changes the trees and dispatches: the path stays, and the event under way is refused", () => {
  const told = [];
  const { window, main, ul, li, tell } = nested(told);
  const event = new window.Event("e", { bubbles: true });
  li.addEventListener("e", () => {
    ul.remove();
    told.push(thrown(() => main.dispatchEvent(event)));
    main.dispatchEvent(new window.Event("inner"));
    told.push(event.composedPath().map((node) => node.localName ?? node.nodeName).join());
  });
  main.addEventListener("inner", tell("inner"));
  main.addEventListener("e", tell("outside"));
  li.dispatchEvent(event);
  assert.deepStrictEqual(told, ["InvalidStateError", "inner 2 main main", "li,ul,main,body,html,#document", "outside 3 li main"]);
  assert.deepStrictEqual([event.eventPhase, event.currentTarget, event.target, event.composedPath().length], [0, null, li, 0]);
});

test("an outer event is cancelled from within a dispatch inside its listener", () => {
  const { window, main, li } = nested([]);
  let outer;
  main.addEventListener("inner", () => outer.preventDefault());
  li.addEventListener("e", (event) => { outer = event; main.dispatchEvent(new window.Event("inner")); });
  assert.strictEqual(li.dispatchEvent(new window.Event("e", { cancelable: true })), false);
});

test("an event of a node is cancelled from a listener of the window, and one of the window from a listener of a node", () => {
  const { window, li } = nested([]);
  let outer;
  window.addEventListener("local", (event) => { outer.preventDefault(); event.preventDefault(); });
  li.addEventListener("e", (event) => {
    outer = event;
    assert.strictEqual(window.dispatchEvent(new window.Event("local", { cancelable: true })), false);
  });
  assert.strictEqual(li.dispatchEvent(new window.Event("e", { cancelable: true })), false);
  const local = new window.Event("other", { cancelable: true });
  li.addEventListener("f", () => local.preventDefault());
  window.addEventListener("other", () => li.dispatchEvent(new window.Event("f")));
  assert.strictEqual(window.dispatchEvent(local), false);
});

test("what a listener throws is reported at the window, and the others are called", () => {
  const told = [];
  const { window, li, tell } = nested(told);
  window.addEventListener("error", (event) => { event.preventDefault(); told.push(`${event.error.message} ${event.message}`); });
  li.addEventListener("e", () => { throw new Error("thrown"); });
  li.addEventListener("e", tell("next"));
  assert.strictEqual(li.dispatchEvent(new window.Event("e")), true);
  assert.deepStrictEqual(told, ["thrown thrown", "next 2 li li"]);
});

test("an error in the listener for errors is printed, and told to nobody once more", (context) => {
  const { window, li } = nested([]);
  const printed = context.mock.method(console, "error", () => {});
  window.addEventListener("error", () => { throw new Error("second"); });
  li.addEventListener("e", () => { throw new Error("first"); });
  li.dispatchEvent(new window.Event("e"));
  assert.deepStrictEqual(printed.mock.calls.map((call) => call.arguments[0].message), ["second", "first"]);
});

test("promise jobs and observers wait for the end of the script", async () => {
  const told = [];
  const { window, main, li } = nested(told);
  new window.MutationObserver((records) => told.push(`observer ${records.length}`)).observe(main, { subtree: true, attributes: true });
  li.addEventListener("e", () => {
    Promise.resolve().then(() => told.push("promise"));
    li.setAttribute("a", "1");
    told.push("listener");
  });
  li.dispatchEvent(new window.Event("e"));
  li.setAttribute("a", "2");
  told.push("script");
  await checkpoint();
  assert.deepStrictEqual(told, ["listener", "script", "promise", "observer 2"]);
});

test("an event that was stopped or cancelled before its dispatch", () => {
  const told = [];
  const { window, li, tell } = nested(told);
  li.addEventListener("e", tell("called"));
  const stopped = new window.Event("e");
  stopped.stopPropagation();
  assert.strictEqual(li.dispatchEvent(stopped), true);
  assert.deepStrictEqual(told, []);
  assert.strictEqual(li.dispatchEvent(stopped), true);
  assert.deepStrictEqual(told, ["called 2 li li"]);
  const cancelled = new window.Event("e", { cancelable: true });
  cancelled.preventDefault();
  assert.strictEqual(li.dispatchEvent(cancelled), false);
});

test("createEvent, initEvent, constants, classes of events, types that are no names", () => {
  const { document, window, li } = nested([]);
  const event = document.createEvent("MouseEvents");
  assert.strictEqual(thrown(() => li.dispatchEvent(event)), "InvalidStateError");
  event.initEvent("odd type \u{1f600}", true, true);
  li.addEventListener("odd type \u{1f600}", (each) => each.preventDefault());
  assert.strictEqual(li.dispatchEvent(event), false);
  assert.ok(event instanceof window.MouseEvent && event instanceof window.UIEvent && event instanceof window.Event);
  assert.strictEqual(new window.CustomEvent("c", { detail: 5 }).detail, 5);
  assert.strictEqual(new window.MouseEvent("c", { clientX: 5, relatedTarget: li }).relatedTarget, li);
  assert.strictEqual(new window.KeyboardEvent("c", { key: "a" }).key, "a");
  assert.deepStrictEqual([window.Event.AT_TARGET, event.BUBBLING_PHASE], [2, 3]);
  assert.strictEqual(thrown(() => document.createEvent("nothing")), "NotSupportedError");
  assert.strictEqual(thrown(() => new window.Event()), "TypeError");
});

test("handlers such as onclick cancel by false, and keep their place", () => {
  const told = [];
  const { window, li } = nested(told);
  li.onclick = () => told.push("first");
  li.addEventListener("click", () => told.push("listener"));
  li.onclick = function () { told.push(this === li); return false; };
  assert.strictEqual(li.dispatchEvent(new window.Event("click", { cancelable: true })), false);
  assert.deepStrictEqual(told, [true, "listener"]);
  li.onclick = null;
  assert.strictEqual(li.dispatchEvent(new window.Event("click", { cancelable: true })), true);
});

test("a click at a checkbox checks it before its listeners, and a cancelled one takes it back", () => {
  const { document, window, body } = page("<input type=checkbox><input type=radio name=r checked><input type=radio name=r>");
  const [box, one, two] = document.querySelectorAll("input");
  const told = [];
  body.addEventListener("input", (event) => told.push(event.type));
  body.addEventListener("change", (event) => told.push(event.type));
  box.addEventListener("click", () => told.push(box.checked));
  box.click();
  assert.deepStrictEqual([box.checked, ...told], [true, true, "input", "change"]);
  box.addEventListener("click", (event) => event.preventDefault());
  box.click();
  assert.strictEqual(box.checked, true);
  two.click();
  assert.deepStrictEqual([one.checked, two.checked], [false, true]);
  two.dispatchEvent(new window.Event("click"));
  assert.strictEqual(two.checked, true);
});

test("dispatches inside each other end in an exception before the stack does", () => {
  const { window, li } = nested([]);
  let depth = 0;
  let name = "nothing";
  li.addEventListener("e", () => {
    depth++;
    name = thrown(() => li.dispatchEvent(new window.Event("e")));
  });
  li.dispatchEvent(new window.Event("e"));
  assert.strictEqual(depth, 64);
  assert.strictEqual(thrown(() => li.dispatchEvent(new window.Event("other"))), "nothing");
  assert.strictEqual(name, "nothing"); // of the outermost listener: only the innermost dispatch was refused
});
