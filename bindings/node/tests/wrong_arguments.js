"use strict";
// Calls everything that a page and a component have, with random things for arguments and for `this`. Prints the counts by what came of it, and ends with 1 if
// anything was thrown but the DOM's exceptions, TypeError, RangeError and what an argument itself throws.
// Usage: node wrong_arguments.js COUNT SEED
const { openDocument } = require("../index");
const { randomness } = require("./random_calls");

const [count, seed] = process.argv.slice(2).map(Number);
const random = randomness(seed);
console.error = () => {};

class Own extends Error {}
const own = () => { throw new Own("an argument's"); };

/** Objects to call: of each interface one, of a page and of a component. */
function objects() {
  const document = openDocument();
  document.body.innerHTML = "<x-a><p class='a b' style='color: red'>text<!--c--></p></x-a><form><input><select><option>o</select><textarea></textarea></form>" +
    "<svg><g/></svg><template>t</template>";
  const root = document.querySelector("x-a").attachShadow({ mode: "closed" });
  root.innerHTML = "<slot></slot><b>bold</b>";
  const made = [];
  for (const from of [document, root]) {
    const owner = from.ownerDocument ?? document;
    const { defaultView: window } = owner;
    const range = owner.createRange();
    range.selectNodeContents(from.firstChild);
    made.push(owner, window, from, ...from.querySelectorAll("*"), owner.createTextNode("ab"), owner.createComment("c"), owner.createDocumentFragment(), range,
      owner.createNodeIterator(from), owner.createTreeWalker(from), new window.MutationObserver(() => {}), new window.Event("e"), new window.CustomEvent("e"),
      new window.MouseEvent("e"), new window.EventTarget(), owner.implementation, owner.implementation.createHTMLDocument("t"), owner.createAttribute("a"),
      from.childNodes, from.children, from.firstChild.attributes ?? from.lastChild.attributes, from.lastChild.classList, from.lastChild.dataset ?? {});
  }
  return made;
}

/** All names of an object, up to the built-in objects. */
function names(object) {
  const found = new Set();
  for (let holder = object; holder !== null && !Object.hasOwn(holder, "hasOwnProperty") && !Array.isArray(holder); holder = Object.getPrototypeOf(holder))
    for (const name of Object.getOwnPropertyNames(holder)) if (name !== "constructor") found.add(name);
  return [...found];
}

function values(all) {
  const proxy = new Proxy({}, { get: own });
  return [undefined, null, true, false, 0, -1, 1, 2, 1.5, 1e10, -1e10, NaN, Infinity, "", "a", "p", "class", "é\ud800", "x".repeat(5000), "<p>a", "*", "[",
    Symbol("s"), 5n, {},
    [], [1, "a"], () => {}, own, { toString: own }, { toString: () => "b" }, { nodeType: 1 }, { mode: "closed" }, { childList: true, subtree: true },
      { handleEvent: 5 },
    { attributeFilter: ["a"] }, { bubbles: true, cancelable: true }, new Date(0), proxy, Object.create(null), "beforebegin", "afterend", ...all];
}

const SKIPPED = new Set(["close", "console", "performance", "structuredClone", "queueMicrotask", "setTimeout", "setInterval", "requestAnimationFrame", "URL",
  "AbortSignal"]);
let all = objects();
const counts = new Map();
let bad = 0;

function tell(what) {
  counts.set(what, (counts.get(what) ?? 0) + 1);
}

for (let made = 0; made < count; made++) {
  if (made % 500 === 499) all = objects();
  const target = random.from(all);
  const name = random.from(names(target));
  const given = Array.from({ length: random.below(5) }, () => random.from(values(all)));
  if (SKIPPED.has(name)) continue;
  try {
    const member = Reflect.get(target, name, target);
    if (typeof member === "function") {
      const self = random.below(10) === 0 ? random.from(values(all)) : target;
      if (/^[A-Z]/.test(name) && random.below(2) === 0) Reflect.construct(member, given);
      else member.apply(self, given);
    } else if (given.length > 0) Reflect.set(target, name, given[0]);
    tell("done");
  } catch (error) {
    tell(error?.name);
    if (error instanceof DOMException || error instanceof TypeError || error instanceof RangeError || error instanceof Own) continue;
    bad++;
    process.stdout.write(`${name}: ${error?.stack ?? String(error)}\n`);
  }
}
for (const [name, number] of [...counts].sort()) process.stdout.write(`${name} ${number}\n`);
process.exit(bad === 0 ? 0 : 1);
