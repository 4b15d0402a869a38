"use strict";
// Closed components: what the page finds of them and they of the page, and how events cross. By the DOM Standard, 2.9 (retargeting) and 4.8 (shadow roots), and
// by this project's own rules on owners.
const test = require("node:test");
const assert = require("node:assert");
const { page, checkpoint, thrown } = require("./support");

/** A page with a host that has a slotted child, and its component with a button and a slot. */
function mounted() {
  const { document, window, body } = page("<section><x-box><b>slotted</b></x-box></section>");
  const host = document.querySelector("x-box");
  const root = host.attachShadow({ mode: "closed" });
  const inside = root.ownerDocument;
  root.innerHTML = "<p><button>press</button><slot></slot></p>";
  return { document, window, body, host, slotted: document.querySelector("b"), root, inside, button: root.querySelector("button"),
    slot: root.querySelector("slot") };
}

test("attachShadow gives a root with a document, a window and interfaces of its own", () => {
  const { document, window, host, root, inside } = mounted();
  assert.deepStrictEqual([root.nodeType, root.mode, root.host, root.parentNode], [11, "closed", null, null]);
  assert.notStrictEqual(inside, document);
  assert.strictEqual(inside.nodeType, 9);
  assert.strictEqual(inside.defaultView.document, inside);
  assert.notStrictEqual(inside.defaultView.Node, window.Node);
  assert.strictEqual(root.firstChild.ownerDocument, inside);
  assert.ok(root instanceof inside.defaultView.ShadowRoot && !(root instanceof window.Node));
  assert.strictEqual(thrown(() => host.attachShadow({ mode: "closed" })), "NotSupportedError");
  assert.strictEqual(thrown(() => document.createElement("x-a").attachShadow({ mode: "open" })), "NotSupportedError");
  assert.strictEqual(thrown(() => document.createElement("a").attachShadow({ mode: "closed" })), "NotSupportedError");
  assert.strictEqual(thrown(() => document.createElement("x-a").attachShadow({})), "TypeError");
});

test("the page finds nothing of a component, and the component nothing of the page", () => {
  const { document, host, root, inside, slot, slotted } = mounted();
  assert.strictEqual(host.shadowRoot, null);
  assert.strictEqual(host.innerHTML, "<b>slotted</b>");
  assert.strictEqual(slotted.assignedSlot, null);
  assert.deepStrictEqual([document.querySelector("button"), document.querySelectorAll("*").length], [null, 6]);
  assert.deepStrictEqual([root.querySelector("b"), root.querySelector("x-box"), inside.querySelector("b"), root.getRootNode({ composed: true })], [null, null,
    null, root]);
  const [seen] = slot.assignedNodes();
  assert.deepStrictEqual([slot.assignedNodes().length, slot.assignedNodes()[0] === seen, seen === slotted], [1, true, false]);
  assert.deepStrictEqual([Reflect.ownKeys(seen), Object.isFrozen(seen), seen.nodeType, seen.parentNode, seen.textContent], [[], true, undefined, undefined,
    undefined]);
});

test("no prototype is shared: what the page changes of its own does not reach a component", () => {
  const { window, host, body, root, inside } = mounted();
  const seen = [];
  const objects = (from, element) => {
    const owner = from.ownerDocument ?? from;
    const all = [element, element.style, element.attributes, element.childNodes, element.children, element.classList, element.dataset, owner,
      owner.createRange(),
      new owner.defaultView.Event("e"), new owner.defaultView.MutationObserver(() => {}), owner.defaultView, owner.implementation, from];
    const found = new Set();
    for (const object of all)
      for (let at = Object.getPrototypeOf(object); at !== null && at !== Object.prototype; at = Object.getPrototypeOf(at)) found.add(at);
    return found;
  };
  const inner = objects(root, root.querySelector("p"));
  assert.deepStrictEqual([...objects(host, body)].filter((each) => inner.has(each)), []);
  const { appendChild } = window.Node.prototype;
  window.Node.prototype.appendChild = function (node) { seen.push(this); return appendChild.call(this, node); };
  root.appendChild(inside.createElement("i"));
  body.appendChild(window.document.createElement("i"));
  assert.deepStrictEqual(seen, [body]);
});

test("a node of one owner is refused by another, and nothing changes", () => {
  const { document, body, root, button, slot } = mounted();
  const before = [body.innerHTML, root.innerHTML];
  for (const call of [() => body.appendChild(button), () => root.appendChild(document.createElement("p")), () => document.adoptNode(button), () =>
    body.contains(button),
    () => root.insertBefore(document.createTextNode("x"), root.firstChild), () => document.importNode(button, true), () => body.compareDocumentPosition(root),
    () => root.appendChild(slot.assignedNodes()[0]), () => document.createRange().selectNode(button)])
    assert.strictEqual(thrown(call), "WrongDocumentError");
  assert.deepStrictEqual([body.innerHTML, root.innerHTML], before);
});

test("an event inside stays inside; a composed one comes to the host, as the host's", () => {
  const { document, window, host, root, inside, button } = mounted();
  const told = [];
  const { Event, CustomEvent } = inside.defaultView;
  const tell = (who) => (event) => told.push([who, event.eventPhase, event.target === host || event.target === button, event.composedPath().length,
    event instanceof window.Event]);
  document.addEventListener("e", tell("page"));
  host.addEventListener("e", tell("host"));
  root.addEventListener("e", tell("root"));
  button.dispatchEvent(new Event("e", { bubbles: true }));
  assert.deepStrictEqual(told.splice(0), [["root", 3, true, 3, false]]);
  button.dispatchEvent(new CustomEvent("e", { bubbles: true, composed: true, detail: { list: [1, "a", button], node: button, by: () => 1 } }));
  assert.deepStrictEqual(told.splice(0), [["root", 3, true, 8, false], ["host", 2, true, 5, true], ["page", 3, true, 5, true]]);
});

test("each owner has its own view of an event: only plain data cross, and no property that was hung on it", () => {
  const { host, button, inside } = mounted();
  let seen;
  host.addEventListener("e", (event) => { seen = event; });
  const event = new inside.defaultView.CustomEvent("e", { composed: true, bubbles: true, detail: { list: [1, "a", button], node: button, by: () => 1,
    deep: { x: null } } });
  event.secret = button;
  button.dispatchEvent(event);
  assert.notStrictEqual(seen, event);
  assert.strictEqual(seen.secret, undefined);
  assert.deepStrictEqual(JSON.parse(JSON.stringify(seen.detail)), { list: [1, "a", null], node: null, by: null, deep: { x: null } });
});

test("the page cancels and stops a component's event, and the component is answered", () => {
  const { host, body, button, inside } = mounted();
  host.addEventListener("e", (event) => { event.preventDefault(); event.stopPropagation(); });
  let called = false;
  body.addEventListener("e", () => { called = true; });
  assert.strictEqual(button.dispatchEvent(new inside.defaultView.Event("e", { bubbles: true, composed: true, cancelable: true })), false);
  assert.strictEqual(called, false);
});

test("the page's event at a slotted child goes through the component, which is shown foreign nodes", () => {
  const { window, host, slot, slotted } = mounted();
  const told = [];
  slot.addEventListener("e", (event) => told.push([event.currentTarget === slot, event.target === slot.assignedNodes()[0], event.composedPath().length]));
  host.addEventListener("e", (event) => told.push([event.target === slotted, event.composedPath().map((node) => node.nodeName).join()]));
  slotted.dispatchEvent(new window.Event("e", { bubbles: true }));
  assert.deepStrictEqual(told, [[true, true, 9], [true, "B,X-BOX,SECTION,BODY,HTML,#document"]]);
});

test("relatedTarget is retargeted, and an event whose related node has the same host stays inside", () => {
  const { host, root, button, inside } = mounted();
  const told = [];
  host.addEventListener("focusout", (event) => told.push(event.relatedTarget));
  const other = root.appendChild(inside.createElement("input"));
  button.dispatchEvent(new inside.defaultView.FocusEvent("focusout", { bubbles: true, composed: true, relatedTarget: other }));
  assert.deepStrictEqual(told, []);
  button.dispatchEvent(new inside.defaultView.FocusEvent("focusout", { bubbles: true, composed: true }));
  assert.deepStrictEqual(told, [null]);
});

test("slotchange comes at the checkpoint, to the component alone", async () => {
  const { document, host, root, slot } = mounted();
  const told = [];
  await checkpoint();
  slot.addEventListener("slotchange", (event) => told.push(["slot", event.eventPhase, event.target === slot]));
  root.addEventListener("slotchange", (event) => told.push(["root", event.eventPhase, event.bubbles]));
  document.addEventListener("slotchange", () => told.push("page"));
  host.append("more", document.createElement("i"));
  assert.deepStrictEqual(told, []);
  await checkpoint();
  assert.deepStrictEqual(told, [["slot", 2, true], ["root", 3, true]]);
  assert.strictEqual(slot.assignedNodes().length, 3);
});

test("a component attaches another one, which is closed to it", () => {
  const { root, inside } = mounted();
  const host = root.appendChild(inside.createElement("x-inner"));
  const inner = host.attachShadow({ mode: "closed" });
  inner.innerHTML = "<i>deep</i>";
  const told = [];
  host.addEventListener("e", (event) => told.push(event.target === host));
  inner.firstChild.dispatchEvent(new inner.ownerDocument.defaultView.Event("e", { composed: true, bubbles: true }));
  assert.deepStrictEqual([told, root.querySelector("i"), host.shadowRoot, inner.firstChild.isConnected], [[true], null, null, true]);
});

test("observers of the page see no change inside, and those inside none outside", async () => {
  const { document, window, root, inside } = mounted();
  const told = [];
  const all = { childList: true, subtree: true, attributes: true, characterData: true };
  new window.MutationObserver((records) => told.push(["page", records.length])).observe(document, all);
  new inside.defaultView.MutationObserver((records) => told.push(["inside", records.length])).observe(root, all);
  root.firstChild.setAttribute("title", "x");
  await checkpoint();
  document.body.setAttribute("title", "x");
  await checkpoint();
  assert.deepStrictEqual(told, [["inside", 1], ["page", 1]]);
});
