"use strict";
// Random calls of the DOM, made on two documents alike. What each call gives, or the name of what it throws, is told as text.
const NAMES = ["div", "p", "span", "b", "DIV", "x-a", "a:b", "svg", "1a", "", "option", "template"];
const ATTRIBUTES = ["id", "class", "title", "data-a-b", "TITLE", "slot", "name", "@click", "xlink:href", "1", "style"];
const VALUES = ["", "a", "b", "a b", "x y x", "é\u{1f600}", "&<>\"", "color: red", "\ud800"];
const DATA = ["", "one", "two words", "é", "<b>&amp;", "\u{1f600}x"];
const MARKUP = ["", "text", "<p>one<p>two", "<b class=a id=x>bold</b><!--c-->", "<div><span title='t'>s</span>tail</div>", "<svg><rect xlink:href='#a'/></svg>",
  "<ul><li>1<li>2</ul>", "<table><tr><td>1</table>", "a&amp;b&nbsp;", "<input value=v><br>", "<template><i>in</i></template>"];
const SELECTORS = ["*", "p", "div span", "div > *", ".a", "#a", "[title]", "b, p", "p + p", "span ~ b", ":first-child", "p:not(.a)", "[class~=b]"];
const SPACES = [null, "http://www.w3.org/2000/svg", "http://www.w3.org/1999/xhtml", "urn:x"];

/** A generator of numbers that gives the same ones again for a seed. */
function randomness(seed) {
  let state = seed >>> 0;
  const next = () => {
    state = (state + 0x6d2b79f5) >>> 0;
    let mixed = Math.imul(state ^ (state >>> 15), state | 1);
    mixed ^= mixed + Math.imul(mixed ^ (mixed >>> 7), mixed | 61);
    return ((mixed ^ (mixed >>> 14)) >>> 0) / 2 ** 32;
  };
  return { below: (count) => Math.floor(next() * count), from: (list) => list[Math.floor(next() * list.length)] };
}

/** One side: a document, and its nodes and cursors by the order in which they came. */
class Side {
  constructor(document) {
    this.document = document;
    this.window = document.defaultView;
    this.nodes = [document, document.body];
    this.numbers = new Map(this.nodes.map((node, at) => [node, at]));
    this.told = [];
    this.cursors = [];
    this.listeners = [0, 1, 2, 3].map((label) => (event) => {
      this.told.push(`${label} ${event.type} ${event.eventPhase} ${this.name(event.target)} ${this.name(event.currentTarget)} ${event.defaultPrevented}`);
      if (label === 1) event.stopPropagation();
      if (label === 2) event.preventDefault();
      if (label === 3) event.currentTarget.removeEventListener(event.type, this.listeners[0]);
    });
  }

  /** The name of a node: its number, which it gets when it is first named. */
  name(node) {
    if (node === null || node === undefined) return String(node);
    if (!this.numbers.has(node)) this.numbers.set(node, this.nodes.push(node) - 1);
    return `n${this.numbers.get(node)}`;
  }

  /** Any value as text. */
  text(value) {
    if (value === null || typeof value !== "object") return typeof value === "string" ? JSON.stringify(value) : String(value);
    if (typeof value.nodeType === "number") return value.nodeType === 2 ? `@${value.name}` : this.name(value);
    return `[${Array.from(value, (item) => this.text(item)).join(" ")}]`;
  }

  /** Do one call: what it gives, or throws. */
  done(call) {
    try {
      return this.text(call(this));
    } catch (error) {
      return `throws ${error.name}`;
    }
  }
}

/** The calls: each takes the random choices that it needs, and gives what is to be done on a side. */
function calls(random) {
  const node = () => {
    const at = random.below(60);
    return (side) => side.nodes[at % side.nodes.length];
  };
  const one = (make) => make();
  const twoNodes = (name) => () => one(() => { const [a, b] = [node(), node()]; return (side) => a(side)[name](b(side)); });
  const threeNodes = (name) => () => one(() => { const [a, b, c] = [node(), node(), node()]; return (side) => a(side)[name](b(side), c(side)); });
  const withValue = (name, values) => () => one(() => { const [a, value] = [node(), random.from(values)]; return (side) => a(side)[name](value); });
  const withTwo = (name, first, second) => () => one(() => {
    const [a, x, y] = [node(), random.from(first), random.from(second)];
    return (side) => a(side)[name](x, y);
  });
  const get = (name) => () => one(() => { const a = node(); return (side) => a(side)[name]; });
  const set = (name, values) => () => one(() => { const [a, value] = [node(), random.from(values)]; return (side) => { a(side)[name] = value; }; });
  const plain = (name) => () => one(() => { const a = node(); return (side) => a(side)[name](); });
  const several = (name) => () => one(() => { const [a, b, value] = [node(), node(), random.from(DATA)]; return (side) => a(side)[name](b(side), value); });
  const make = (name, values) => () => one(() => { const value = random.from(values); return (side) => side.document[name](value); });
  const offsets = (name) => () => one(() => {
    const [a, offset, count, data] = [node(), random.below(6), random.below(6), random.from(DATA)];
    return (side) => (name === "replaceData" ? a(side)[name](offset, count, data) : name === "insertData" ? a(side)[name](offset, data)
      : a(side)[name](offset, count));
  });
  const WHERE = ["beforebegin", "afterbegin", "beforeend", "afterend", "inside"];
  return [
    ...[make("createElement", NAMES), make("createTextNode", DATA), make("createComment", DATA), make("createDocumentFragment", [undefined])],
    ...Array(6).fill(make("createElement", ["div", "p", "span", "b", "i", "section"])), ...Array(3).fill(make("createTextNode", DATA)),
    () => one(() => { const [space, name] = [random.from(SPACES), random.from(["div", "rect", "x-a", "1a", "B"])]; return (side) =>
      side.document.createElementNS(space, name); }),
    ...Array(8).fill(twoNodes("appendChild")), ...Array(4).fill(threeNodes("insertBefore")), ...Array(3).fill(threeNodes("replaceChild")),
    ...["removeChild", "contains", "isEqualNode"].map(twoNodes), plain("remove"), plain("hasChildNodes"), plain("getRootNode"),
    ...["append", "prepend", "before", "after", "replaceWith"].map(several),
    // jsdom joins the siblings of a Text that is itself asked to normalize, where the Standard has descendants alone
    () => one(() => { const a = node(); return (side) => (a(side).nodeType === 3 ? undefined : a(side).normalize()); }),
    withTwo("setAttribute", ATTRIBUTES, VALUES), withTwo("setAttribute", ["id", "class", "title"], VALUES), withValue("removeAttribute", ATTRIBUTES),
    withValue("getAttribute", ATTRIBUTES), withValue("toggleAttribute", ATTRIBUTES), withValue("hasAttribute", ATTRIBUTES), plain("getAttributeNames"),
    () => one(() => {
      const [a, space, name, value] = [node(), random.from(SPACES), random.from(["a", "x:a", "xlink:href", "xml:lang"]), random.from(VALUES)];
      return (side) => a(side).setAttributeNS(space, name, value);
    }),
    set("id", VALUES), set("className", VALUES), set("textContent", DATA), set("innerHTML", MARKUP), set("innerHTML", MARKUP), set("outerHTML", MARKUP),
    set("data", DATA), set("nodeValue", DATA), ...["replaceData", "insertData", "deleteData", "substringData"].map(offsets), withValue("splitText", [0, 1, 2,
      9]),
    withTwo("insertAdjacentHTML", WHERE, MARKUP), withTwo("insertAdjacentText", WHERE, DATA), withValue("cloneNode", [true, false]),
    ...["firstChild", "lastChild", "nextSibling", "previousSibling", "parentNode", "parentElement", "childNodes", "children", "firstElementChild", "nodeName",
      "lastElementChild", "nextElementSibling", "previousElementSibling", "childElementCount", "textContent", "outerHTML", "innerHTML", "isConnected",
        "nodeValue",
      "length", "wholeText", "attributes", "localName", "prefix", "namespaceURI", "tagName", "ownerDocument"].map(get),
    withValue("querySelectorAll", SELECTORS), withValue("querySelector", SELECTORS), withValue("matches", SELECTORS), withValue("closest", SELECTORS),
    withValue("getElementsByTagName", ["p", "div", "*", "DIV", "rect"]), withValue("getElementsByClassName", VALUES),
    () => one(() => { const [a, name, token] = [node(), random.from(["add", "remove", "toggle", "contains"]), random.from(["a", "b", "", "x y", "é"])];
      return (side) => a(side).classList[name](token); }),
    () => one(() => { const [a, key, value] = [node(), random.from(["a", "aB", "a-b"]), random.from(VALUES)]; return (side) => { a(side).dataset[key] = value;
      return Object.keys(a(side).dataset).join(); }; }),
    () => one(() => { const [a, b] = [node(), node()]; return (side) => a(side).compareDocumentPosition(b(side)) & 0x19; }),
    () => one(() => {
      const [a, type, label, capture, once] = [node(), random.from(["e", "f"]), random.below(4), random.below(2) === 1, random.below(4) === 0];
      return (side) => a(side).addEventListener(type, side.listeners[label], { capture, once });
    }),
    () => one(() => {
      const [a, type, label, capture] = [node(), random.from(["e", "f"]), random.below(4), random.below(2) === 1];
      return (side) => a(side).removeEventListener(type, side.listeners[label], capture);
    }),
    ...Array(3).fill(() => one(() => {
      const [a, type, bubbles, cancelable] = [node(), random.from(["e", "f"]), random.below(2) === 1, random.below(2) === 1];
      return (side) => {
        const answer = a(side).dispatchEvent(new side.window.Event(type, { bubbles, cancelable }));
        return [answer, ...side.told.splice(0)];
      };
    })),
    () => one(() => { const [a, show] = [node(), random.from([0xffffffff, 1, 4, 5, 0x80])]; return (side) =>
      side.cursors.push(side.document.createTreeWalker(a(side), show)); }),
    ...Array(3).fill(() => one(() => {
      const [at, move] = [random.below(100), random.from(["parentNode", "firstChild", "lastChild", "nextSibling", "previousSibling", "nextNode",
        "previousNode"])];
      return (side) => side.cursors[at % side.cursors.length]?.[move]?.();
    })),
  ];
}

module.exports = { randomness, Side, calls };
