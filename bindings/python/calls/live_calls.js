// Runs plans of listeners and events in jsdom, for test_live.py. Standard input has a list of plans as JSON, and standard output gets the list of what each
// told.
"use strict";
const { JSDOM, VirtualConsole } = require("jsdom");

const MOST_DEPTH = 3;

function opened() {
  const window = new JSDOM("", { virtualConsole: new VirtualConsole() }).window;
  const document = window.document;
  document.removeChild(document.documentElement);
  const nodes = { document };
  for (const [name, tag] of [["a", "div"], ["b", "section"], ["c", "p"], ["d", "span"]]) nodes[name] = document.createElement(tag);
  document.appendChild(nodes.a);
  nodes.a.appendChild(nodes.b);
  nodes.b.appendChild(nodes.c);
  nodes.c.appendChild(nodes.d);
  nodes.root = nodes.b.attachShadow({ mode: "closed" });
  nodes.slot = nodes.root.appendChild(document.createElement("slot"));
  nodes.in = nodes.root.appendChild(document.createElement("i"));
  return { window, nodes };
}

class Run {
  constructor(plan) {
    Object.assign(this, opened());
    this.plan = plan;
    this.told = [];
    this.depth = 0;
    this.functions = {};
    this.window.addEventListener("error", () => this.told.push(["error"]));
    this.observer = new this.window.MutationObserver((records) => this.told.push(["records", ...records.map((record) => this.record(record))]));
    this.observer.observe(this.nodes.document, { childList: true, attributes: true, subtree: true, attributeOldValue: true });
  }

  name(node) {
    return Object.keys(this.nodes).find((name) => this.nodes[name] === node) || null;
  }

  record(record) {
    return [record.type, this.name(record.target), record.attributeName, record.oldValue, [...record.addedNodes].map((node) => this.name(node)),
      [...record.removedNodes].map((node) => this.name(node))];
  }

  listener(id) {
    this.functions[id] = this.functions[id] || ((event) => this.heard(id, event));
    return this.functions[id];
  }

  heard(id, event) {
    const path = event.composedPath().filter((node) => node !== this.window).map((node) => this.name(node));
    this.told.push([id, event.type, event.eventPhase, this.name(event.target), this.name(event.currentTarget), this.name(event.relatedTarget || null), path,
      event.bubbles, event.cancelable, event.composed, event.defaultPrevented]);
    for (const action of this.plan.listeners[id]) this.act(action, event);
    this.told.push([id, event.defaultPrevented]);
  }

  act([what, ...words], event) {
    const [node, ...rest] = words;
    if (what === "stop") event.stopPropagation();
    else if (what === "stop-now") event.stopImmediatePropagation();
    else if (what === "prevent") event.preventDefault();
    else if (what === "listen") this.nodes[node].addEventListener(rest[0], this.listener(rest[1]), { capture: rest[2], once: rest[3], passive: rest[4] });
    else if (what === "unlisten") this.nodes[node].removeEventListener(rest[0], this.listener(rest[1]), { capture: rest[2] });
    else if (what === "dispatch") this.dispatch(node, ...rest);
    else if (what === "remove") this.nodes[node].remove();
    else if (what === "append") this.append(node, rest[0]);
    else if (what === "set") this.nodes[node].setAttribute("k", rest[0]);
    else if (what === "micro") this.window.queueMicrotask(() => this.told.push(["micro", node]));
    else if (what === "throw") throw new Error("thrown");
  }

  append(parent, child) {
    try {
      this.nodes[parent].appendChild(this.nodes[child]);
    } catch (refusal) {
      this.told.push(["refused"]);
    }
  }

  dispatch(node, type, bubbles, cancelable, composed) {
    if (this.depth === MOST_DEPTH) return;
    this.depth++;
    const event = new this.window.Event(type, { bubbles, cancelable, composed });
    this.told.push(["result", this.nodes[node].dispatchEvent(event), event.defaultPrevented, event.eventPhase, event.currentTarget === null]);
    this.depth--;
  }

  async run() {
    for (const step of this.plan.steps) {
      this.act(step);
      await new Promise((resolve) => setTimeout(resolve));
    }
    return this.told;
  }
}

async function main() {
  const plans = JSON.parse(require("fs").readFileSync(0, "utf8"));
  const told = [];
  for (const plan of plans) told.push(await new Run(plan).run());
  process.stdout.write(JSON.stringify(told));
}

main();
