"use strict";
// Nodes, attributes, lists, markup, and the properties of forms. The expected values are those of the DOM Standard and of HTML.
const test = require("node:test");
const assert = require("node:assert");
const { page, thrown } = require("./support");
const { openDocument, closeDocument } = require("../index");

const SVG = "http://www.w3.org/2000/svg";
const XLINK = "http://www.w3.org/1999/xlink";

test("a node has one object, and what is hung on it stays", () => {
  const { document, body } = page("<p>a</p>");
  const text = body.firstChild.firstChild;
  text.mark = 1;
  body.firstChild.remove();
  assert.strictEqual(document.createDocumentFragment().appendChild(text).mark, 1);
  const tail = text.splitText(0);
  assert.strictEqual(text.nextSibling, tail);
  assert.deepStrictEqual([body.childNodes === body.childNodes, body.attributes === body.attributes, body.classList === body.classList], [true, true, true]);
});

test("lists are live", () => {
  const { document, body } = page("<p></p><p class=a></p>");
  const lists = [body.childNodes, body.children, document.getElementsByTagName("P"), document.getElementsByClassName("a")];
  const still = body.querySelectorAll("p");
  body.append("text", document.createElement("p"));
  body.lastChild.className = "a b";
  assert.deepStrictEqual(lists.map((list) => list.length), [4, 3, 3, 2]);
  assert.strictEqual(still.length, 2);
  assert.deepStrictEqual([lists[0][2].data, lists[0][9], lists[1].item(2) === body.lastChild, 3 in lists[0], 4 in lists[0]], ["text", undefined, true, true,
    false]);
  assert.deepStrictEqual([...lists[2]].map((node) => node.className), ["", "a", "a b"]);
  body.lastChild.id = "named";
  assert.strictEqual(lists[1].namedItem("named"), body.lastChild);
});

test("selectors of the engine's grammar, and what is none", () => {
  const { document, body } = page("<ul><li class='a b' title=t>1<li><b>2</b></ul>");
  const found = (selector) => Array.from(document.querySelectorAll(selector), (node) => node.textContent).join();
  assert.deepStrictEqual([found("li.a.b[title^=t]"), found("ul > li:not(.a)"), found("li + li, b"), found("li:first-child"), found("i")], ["1", "2", "2,2",
    "1", ""]);
  assert.deepStrictEqual([body.querySelector("b").closest("li").matches("li:last-child"), document.querySelector("i")], [true, null]);
  for (const selector of ["", "p >", ":nope", "li:nth-child(1)", "[", "a:is(b)"]) assert.strictEqual(thrown(() => document.querySelector(selector)),
    "SyntaxError");
});

test("names and namespaces that the engine does not have are carried", () => {
  const { document, body } = page();
  const svg = body.appendChild(document.createElementNS(SVG, "svg"));
  const use = svg.appendChild(document.createElementNS(SVG, "use"));
  use.setAttributeNS(XLINK, "xlink:href", "#a");
  use.setAttribute("xlink:href", "#b");
  use.setAttribute("odd:name", "1");
  assert.deepStrictEqual([use.tagName, use.namespaceURI, use.getAttributeNS(XLINK, "href"), use.getAttribute("xlink:href")], ["use", SVG, "#b", "#b"]);
  assert.strictEqual(svg.outerHTML, "<svg><use xlink:href=\"#b\" odd:name=\"1\"></use></svg>");
  const clone = svg.cloneNode(true);
  assert.deepStrictEqual([clone.firstChild.namespaceURI, clone.firstChild.getAttributeNS(XLINK, "href"), clone.isEqualNode(svg)], [SVG, "#b", true]);
  body.innerHTML = "<p @click='x' a.b='y'></p>";
  assert.deepStrictEqual(body.firstChild.getAttributeNames(), ["@click", "a.b"]);
  assert.strictEqual(body.innerHTML, "<p @click=\"x\" a.b=\"y\"></p>");
  assert.strictEqual(thrown(() => body.setAttribute("@click", "")), "InvalidCharacterError");
  assert.strictEqual(thrown(() => document.createElementNS(null, "a:b")), "NamespaceError");
  assert.deepStrictEqual([document.createElement("A:B").localName, document.createElement("é").tagName], ["a:b", "É"]);
});

test("attributes as nodes", () => {
  const { document, body } = page("<p class=a title=t></p>");
  const p = body.firstChild;
  const attr = p.getAttributeNode("class");
  assert.deepStrictEqual([attr.name, attr.value, attr.ownerElement, attr.nodeType, p.attributes[0] === attr, p.attributes.title.value], ["class", "a", p, 2,
    true, "t"]);
  attr.value = "b";
  assert.strictEqual(p.className, "b");
  assert.strictEqual(p.removeAttributeNode(attr), attr);
  assert.deepStrictEqual([attr.ownerElement, attr.value, p.hasAttribute("class")], [null, "b", false]);
  p.setAttributeNode(attr);
  assert.strictEqual(thrown(() => body.setAttributeNode(attr)), "InUseAttributeError");
  const made = document.createAttribute("DATA-x");
  made.value = "1";
  p.setAttributeNode(made);
  assert.deepStrictEqual([p.dataset.x, p.getAttributeNames()], ["1", ["title", "class", "data-x"]]);
  assert.strictEqual(thrown(() => body.appendChild(attr)), "HierarchyRequestError");
});

test("text of any units, of any length", () => {
  const { document, body } = page();
  const data = "\ud800\u0000é\u{1f600}".repeat(20_000);
  const text = body.appendChild(document.createTextNode(data));
  body.setAttribute("title", data);
  assert.ok(text.data === data && body.title === data && body.textContent === data && text.length === data.length);
  text.replaceData(1, 1, "-");
  assert.strictEqual(text.substringData(0, 3), "\ud800-é");
});

test("style, dataset and classList write their attributes, and follow them", () => {
  const { body } = page("<p style='color: red' data-a-b=1 class=' x  y x'></p>");
  const p = body.firstChild;
  p.style.setProperty("margin-top", "3px");
  assert.strictEqual(p.getAttribute("style"), "color: red; margin-top: 3px;");
  p.setAttribute("style", "display: none");
  assert.deepStrictEqual([p.style.display, p.style.color], ["none", ""]);
  p.dataset.cD = 2;
  delete p.dataset.aB;
  assert.deepStrictEqual([{ ...p.dataset }, p.getAttribute("data-c-d")], [{ cD: "2" }, "2"]);
  assert.deepStrictEqual([p.classList.length, p.classList[1], p.classList.contains("y")], [2, "y", true]);
  p.classList.replace("x", "z");
  assert.deepStrictEqual([p.className, p.classList.toggle("z"), p.className], ["z y", false, "y"]);
  assert.strictEqual(thrown(() => p.classList.add("a b")), "InvalidCharacterError");
});

test("inputs, options and selects", () => {
  const { document,
    body } = page("<form><input value=a><input type=checkbox><select><option>x<option value=w selected>y</select><textarea>t</textarea></form>");
  const [input, box] = document.querySelectorAll("input");
  const [select, area] = [document.querySelector("select"), document.querySelector("textarea")];
  input.value = "b\nc";
  input.setAttribute("value", "later");
  assert.deepStrictEqual([input.value, input.defaultValue, box.value, box.checked, box.type, input.form === body.firstChild], ["bc", "later", "on", false,
    "checkbox", true]);
  assert.deepStrictEqual([select.value, select.selectedIndex, select.options.length, select.type], ["w", 1, 2, "select-one"]);
  select.value = "x";
  assert.deepStrictEqual([select.selectedIndex, select.options[1].selected, select.selectedOptions[0].text], [0, false, "x"]);
  select.value = "nothing";
  assert.deepStrictEqual([select.selectedIndex, select.value], [-1, ""]);
  select.options[1].selected = true;
  assert.strictEqual(select.value, "w");
  area.value = "typed";
  assert.deepStrictEqual([area.defaultValue, area.value, area.textContent], ["t", "typed", "t"]);
  assert.deepStrictEqual([input.cloneNode().value, document.querySelector("form").elements.length], ["bc", 4]);
  assert.ok(Object.getOwnPropertyDescriptor(document.defaultView.HTMLInputElement.prototype, "value").set);
});

test("documents: title, parts, other documents, adoption", () => {
  const document = openDocument("<!DOCTYPE html><html lang=en><head><title> a  b </title></head><body><p id=x>hi</p></body></html>");
  assert.deepStrictEqual([document.title, document.documentElement.lang, document.getElementById("x").textContent], ["a b", "en", "hi"]);
  const other = document.implementation.createHTMLDocument("other");
  const p = document.getElementById("x");
  other.body.appendChild(p);
  assert.deepStrictEqual([p.ownerDocument === other, document.getElementById("x"), other.title, other.defaultView], [true, null, "other", null]);
  assert.strictEqual(document.adoptNode(p).ownerDocument, document);
  assert.strictEqual(document.importNode(other.body, true).ownerDocument, document);
  assert.strictEqual(thrown(() => document.appendChild(document.createElement("p"))), "HierarchyRequestError");
  assert.strictEqual(thrown(() => document.body.appendChild(openDocument().body)), "WrongDocumentError");
  closeDocument(document);
  assert.strictEqual(thrown(() => document.body), "InvalidStateError");
});

test("focus moves, and is told", () => {
  const { document, body } = page("<input><button>b</button><p>no</p>");
  const [input, button, p] = body.children;
  const told = [];
  for (const type of ["focus", "blur", "focusin", "focusout"]) body.addEventListener(type, (event) => told.push(`${type} ${event.target.localName}`), true);
  input.focus();
  p.focus();
  assert.strictEqual(document.activeElement, input);
  button.focus();
  button.blur();
  assert.strictEqual(document.activeElement, body);
  assert.deepStrictEqual(told.filter((line) => /^(?:focus|blur) /.test(line)), ["focus input", "blur input", "focus button", "blur button"]);
});

test("nothing is put among Node's globals unless it is asked for", () => {
  assert.deepStrictEqual([typeof globalThis.document, typeof globalThis.window, typeof globalThis.Node], ["undefined", "undefined", "undefined"]);
});
