// Carries out the lines of the bench's kinds by calls of a window's own DOM, as directly as it can.
//
// All lines are read, and their calls chosen, before the clock starts; nothing is printed, and no refusal is looked for. Only the commands
// are here that the kinds have. What is counted (events heard, records given, elements found) is compared with what domrun printed.
"use strict";
(function (exports, { parse }) {
  const XHTML = "http://www.w3.org/1999/xhtml";
  const AT_ONCE = 32;

  // Runs `first`, and then `others` by the clock, on a document of its own. `asks`: a listener asks the event for all that domrun prints of it.
  class Run {
    constructor(window, asks) {
      Object.assign(this, { window, asks, counts: { events: 0, records: 0, found: 0 }, owners: new Map(), attached: 0, seen: null });
      this.document = window.document.implementation.createDocument(XHTML, null, null);
      this.ownerOf("p").nodes.push(this.document);
    }

    ownerOf(word) {
      if (!this.owners.has(word)) this.owners.set(word, { run: this, nodes: [], ranges: [], iterators: [], observers: [] });
      return this.owners.get(word);
    }

    // The calls of the lines, in pieces: so many calls at most, how many lines they are, and whether a turn ends behind them.
    read(lines) {
      const pieces = [{ calls: [], lines: 0, ends: true }];
      for (const line of lines) {
        const { owner, command } = parse(line);
        if (!command || (command.name !== "." && !CALLS[command.name])) throw new Error("no such line: " + line);
        const last = pieces[pieces.length - 1];
        last.lines++;
        if (command.name !== ".") last.calls.push(this.callOf(this.ownerOf(owner), command));
        last.ends = command.name === ".";
        if (last.ends || last.calls.length === AT_ONCE) pieces.push({ calls: [], lines: 0, ends: true });
      }
      return pieces;
    }

    callOf(owner, { name, values, options }) {
      const [a, b, c, d] = values.map((value) => (value && value.table ? value.number : value));
      return { call: CALLS[name], owner, a, b, c: Object.keys(options).length ? options : c, d };
    }

    // Makes the calls until the time is up: how many lines that were, and the milliseconds that they took.
    async make(pieces, limit) {
      const start = performance.now();
      let made = 0;
      for (const { calls, lines, ends } of pieces) {
        for (let at = 0; at < calls.length; at++) {
          const line = calls[at];
          line.call(line.owner, line.a, line.b, line.c, line.d);
        }
        made += lines;
        if (ends) await null;
        if (performance.now() - start > limit) break;
      }
      return { made, taken: performance.now() - start };
    }
  }

  const hear = (counts) => () => void counts.events++;
  const hearAndAsk = (run) => ({ eventPhase, target, currentTarget, relatedTarget, type }, path) => {
    run.counts.events++;
    run.seen = [eventPhase, target, currentTarget, relatedTarget, type, path];
  };

  function listen({ run, nodes }, node, type) {
    const ask = hearAndAsk(run);
    nodes[node].addEventListener(type, run.asks ? (event) => ask(event, event.composedPath()) : hear(run.counts));
  }

  function observer({ run, observers }) {
    observers.push(new run.window.MutationObserver((records) => void (run.counts.records += records.length)));
  }

  // The two words whose absence is false are said; jsdom 20 takes what is not said for no answer.
  function observe({ nodes, observers }, number, node, options) {
    observers[number].observe(nodes[node], { childList: false, subtree: false, ...options });
  }

  // Both ends are in Texts that are children of one parent: each has a clone, and these are the fragment's ends.
  function extract({ nodes, ranges }, range) {
    const fragment = ranges[range].extractContents();
    nodes.push(fragment, fragment.firstChild, fragment.lastChild);
  }

  function attach({ run, nodes }, node) {
    run.ownerOf("c" + ++run.attached).nodes.push(nodes[node].attachShadow({ mode: "closed" }));
  }

  const CALLS = {
    "new element": ({ run, nodes }, name) => void nodes.push(run.document.createElement(name)),
    "new text": ({ run, nodes }, data) => void nodes.push(run.document.createTextNode(data)),
    append: ({ nodes }, parent, node) => void nodes[parent].appendChild(nodes[node]),
    insert: ({ nodes }, parent, node, child) => void nodes[parent].insertBefore(nodes[node], nodes[child]),
    remove: ({ nodes }, node) => void nodes[node].remove(),
    normalize: ({ nodes }, node) => void nodes[node].normalize(),
    set: ({ nodes }, node, name, value) => void nodes[node].setAttribute(name, value),
    "replace-data": ({ nodes }, node, offset, count, data) => void nodes[node].replaceData(offset, count, data),
    split: ({ nodes }, node, offset) => void nodes.push(nodes[node].splitText(offset)),
    "range-new": ({ run, ranges }) => void ranges.push(run.document.createRange()),
    "range-start": ({ nodes, ranges }, range, node, offset) => void ranges[range].setStart(nodes[node], offset),
    "range-end": ({ nodes, ranges }, range, node, offset) => void ranges[range].setEnd(nodes[node], offset),
    "insert-node": ({ nodes, ranges }, range, node) => void ranges[range].insertNode(nodes[node]),
    "iter-new": ({ run, nodes, iterators }, root, shown) => void iterators.push(run.document.createNodeIterator(nodes[root], shown)),
    "iter-next": ({ iterators }, iterator) => void iterators[iterator].nextNode(),
    query: ({ run, nodes }, node, text) => void (run.counts.found += nodes[node].querySelectorAll(text).length),
    dispatch: ({ run, nodes }, node, type, options) => void nodes[node].dispatchEvent(new run.window.Event(type, options)),
    listen, observer, observe, extract, attach,
  };

  // The best of at most so many runs, each on a document of its own: the lines carried out and the milliseconds that they took, whether that
  // is all of them, and the counts. `limit`: the milliseconds behind which a run is stopped; `patience`: those behind which no other is begun.
  async function measure(window, { first, others, asks, limit, patience, runs }) {
    const begun = performance.now();
    let best = null;
    for (let number = 0; number < runs && performance.now() - begun <= patience; number++) {
      const run = new Run(window, asks);
      const [making, timed] = [run.read(first), run.read(others)];
      await run.make(making, Infinity);
      if (typeof gc === "function") gc();
      const { made, taken } = await run.make(timed, limit);
      if (!best || taken / made < best.taken / best.made) best = { made, taken, isWhole: made === others.length, counts: run.counts };
    }
    return best;
  }

  exports.direct = { measure };
})(typeof module === "object" ? module.exports : globalThis,
  typeof require === "function" ? require("../harness/lines.js").protocol : globalThis.protocol);
