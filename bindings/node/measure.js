"use strict";
// Measures this document beside jsdom and domino: 10,000 elements built, walked, queried and changed, 3,000 rows mounted by React, events up 50 nodes.
// Prints milliseconds of the processor, the best of some rounds in turn, and the bytes of memory for an element.
// Usage: NODE_PATH=/usr/share/nodejs node measure.js [ROUNDS]          (over the stand-in these are no times of the engine)
const path = require("node:path");
const { spawnSync } = require("node:child_process");

const COUNT = 10_000;
const ROWS = 3_000;
const KINDS = ["owlantimony", "domino", "jsdom"];
const STEPS = ["build", "walk", "query", "change", "react", "events", "memory"];

/** A document of a kind, and its window. */
function opened(kind) {
  if (kind === "jsdom") {
    const { window } = new (require("jsdom").JSDOM)("<html><head></head><body></body></html>");
    return { document: window.document, window };
  }
  if (kind === "domino") {
    const window = require("domino").createWindow("<html><head></head><body></body></html>");
    return { document: window.document, window };
  }
  const document = require("./index").openDocument();
  return { document, window: document.defaultView };
}

/** Sections of eight paragraphs with a link in every second one: with the root and the sections, COUNT elements. */
function build(document, body) {
  const root = body.appendChild(document.createElement("main"));
  let section;
  for (let made = 1; made < COUNT; made++) {
    if (made % 13 === 1) {
      section = root.appendChild(document.createElement("section"));
      continue;
    }
    const element = section.appendChild(document.createElement(made % 13 % 3 ? "p" : "a"));
    element.setAttribute("class", made % 2 ? "odd" : "even");
    element.appendChild(document.createTextNode(`word ${made}`));
  }
  return root;
}

/** Go through all nodes by first child, next sibling and parent. */
function walk(root) {
  let elements = 0;
  for (let node = root; node !== null; ) {
    elements += node.nodeType === 1 ? 1 : 0;
    let following = node.firstChild;
    while (following === null && node !== root) {
      following = node.nextSibling;
      if (following === null) node = node.parentNode;
    }
    node = following;
  }
  if (elements !== COUNT) throw new Error(`${elements}`);
}

function query(document) {
  for (let round = 0; round < 10; round++) {
    let found = 0;
    for (const name of ["main", "section", "p", "a"]) found += document.getElementsByTagName(name).length;
    if (found !== COUNT) throw new Error(`${found}`);
  }
}

function change(root) {
  for (const section of Array.from(root.childNodes)) {
    section.appendChild(section.firstChild);
    if (section.firstChild.nextSibling !== null) section.removeChild(section.firstChild);
    for (const child of Array.from(section.childNodes)) child.setAttribute("class", "changed");
  }
}

/** The milliseconds that the processor has spent for this process. */
function spent() {
  const { user, system } = process.cpuUsage();
  return (user + system) / 1000;
}

/** 200 events up 50 nodes with a listener on each. */
function events(document, window, body) {
  let node = body;
  let calls = 0;
  for (let depth = 0; depth < 50; depth++) {
    node = node.appendChild(document.createElement("div"));
    node.addEventListener("e", () => calls++);
  }
  const start = spent();
  for (let fired = 0; fired < 200; fired++) {
    const event = document.createEvent("Event");
    event.initEvent("e", true, true);
    node.dispatchEvent(event);
  }
  const taken = spent() - start;
  if (calls !== 10_000) throw new Error(`${calls}`);
  return taken;
}

/** Mount rows with React: it wants a window among the globals. */
function react({ document, window }) {
  globalThis.window = window;
  globalThis.document = document;
  process.env.NODE_ENV = "production";
  const React = require("react");
  const { flushSync } = require("react-dom");
  const { createRoot } = require("react-dom/client");
  const h = React.createElement;
  const rows = Array.from({ length: ROWS }, (_, at) => h("tr", { key: at, className: "row" }, h("td", { onClick: () => {} }, `row ${at}`)));
  const root = createRoot(document.body.appendChild(document.createElement("div")));
  const start = spent();
  flushSync(() => root.render(h("table", null, h("tbody", null, rows))));
  const taken = spent() - start;
  if (document.querySelectorAll("tr").length !== ROWS) throw new Error("rows are missing");
  return taken;
}

/** Measure one kind in this process: the rounds are on one document, and the best counts. */
function measured(kind) {
  const best = Object.fromEntries(STEPS.map((step) => [step, Infinity]));
  const timed = (step, call) => {
    const start = spent();
    const value = call();
    best[step] = Math.min(best[step], spent() - start);
    return value;
  };
  const { document, window } = opened(kind);
  for (let round = 0; round < 4; round++) {
    global.gc?.();
    const before = process.memoryUsage();
    const root = timed("build", () => build(document, document.body));
    global.gc?.();
    const after = process.memoryUsage();
    best.memory = Math.min(best.memory, (after.rss - before.rss) / COUNT);
    timed("walk", () => walk(root));
    timed("query", () => query(document));
    timed("change", () => change(root));
    document.body.removeChild(root);
    best.events = Math.min(best.events, events(document, window, document.body));
    document.body.textContent = "";
  }
  try {
    best.react = react(opened(kind));
  } catch {
    best.react = NaN; // domino lacks what React wants of a window
  }
  return STEPS.map((step) => best[step]);
}

function main() {
  const [rounds = "3", kind] = process.argv.slice(2);
  if (kind !== undefined) return console.log(JSON.stringify(measured(kind)));
  const best = new Map();
  for (let round = 0; round < Number(rounds); round++)
    for (const each of KINDS) {
      const { stdout, status } = spawnSync(process.execPath, ["--expose-gc", path.join(__dirname, "measure.js"), "1", each], { encoding: "utf8" });
      if (status !== 0) continue;
      const taken = JSON.parse(stdout).map((value) => value ?? NaN);
      best.set(each, best.has(each) ? best.get(each).map((value, at) => Math.min(value, taken[at])) : taken);
    }
  console.log(`${COUNT} elements, ms`.padEnd(21) + STEPS.map((step) => step.padStart(9)).join(""));
  for (const each of KINDS)
    console.log(each.padEnd(21) + (best.get(each)?.map((value) => (Number.isNaN(value) ? "-" : value.toFixed(1)).padStart(9)).join("") ?? "  is not there"));
  return undefined;
}

main();
