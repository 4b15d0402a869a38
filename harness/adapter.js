// Carries out the lines of a script by calls of a window's own DOM, and writes what domrun writes.
//
// What the DOM can answer, it answers. The rest is kept here and in queue.js, as thinly as possible: names, turns, the refusals before the
// DOM's, and that each owner has its own notification. `run` runs a script that attaches components twice: the first time it lets the DOM
// notify after every line, to see which line signals which slots; the second time at the ends of turns, as the protocol has it.
"use strict";
(function (exports, { parse, linesOf, KINDS }, { COMMANDS, Refused, refuseWhere, refuseFull, quotedOrNull }, { plansFor, habitsOf }, { Unrepresentable }, { Queue }, { plant }) {
  const XHTML = "http://www.w3.org/1999/xhtml";
  const REFUSALS = {
    HierarchyRequestError: "hierarchy", NotFoundError: "not-found", NotSupportedError: "not-supported",
    InvalidCharacterError: "invalid-character", SyntaxError: "selector", IndexSizeError: "index-size", TypeError: "type",
  };

  // The page or a component: what it has made, by number.
  class Owner {
    constructor(word) {
      this.word = word;
      this.attached = 0;
      for (const table of ["nodes", "ranges", "iterators", "walkers", "observers"]) this[table] = [];
      this.listeners = new Map();
    }
  }

  class Run {
    // `signals`: for each line the slots that it signals, in the order of their events; null: this run finds it out.
    constructor(window, signals, fixes) {
      Object.assign(this, { window, signals, fixes, found: [], met: new Set(), output: [], turn: null, atCommand: false, stopped: null });
      this.owners = new Map();
      this.queue = new Queue(this);
      this.names = new Map();
      this.page = this.addOwner("p");
      this.first = this.makeDocument();
      this.name(this.page, this.first);
    }

    // A document in which elements are HTML's, so that they take shadow roots, and names keep their case, in selectors too.
    makeDocument() {
      return this.window.document.implementation.createDocument(XHTML, null, null);
    }

    addOwner(word) {
      const owner = new Owner(word);
      this.owners.set(word, owner);
      return owner;
    }

    // ---- names

    name(owner, node) {
      refuseFull(owner, "nodes");
      this.names.set(node, { owner, number: owner.nodes.push(node) - 1 });
      if (node.localName === "slot") node.addEventListener("slotchange", (event) => this.signalled(event), { capture: true });
      return this.show(owner, node);
    }

    // Names the nodes below a node that have no name yet, in tree order.
    nameAll(owner, node) {
      if (!this.names.has(node)) this.name(owner, node);
      for (let child = node.firstChild; child; child = child.nextSibling) this.nameAll(owner, child);
    }

    show(viewer, node) {
      if (!node) return "null";
      const { owner, number } = this.names.get(node) || {};
      if (!owner) return "?" + node.nodeName;
      if (owner === this.page) return "n" + number;
      return (owner === viewer ? "" : owner.word + ":") + "m" + number;
    }

    showList(viewer, nodes) {
      return "[" + Array.from(nodes, (node) => this.show(viewer, node)).join(",") + "]";
    }

    add(owner, table, thing) {
      refuseFull(owner, table);
      return table[0] + (owner[table].push(thing) - 1);
    }

    // ---- lines and turns

    // Awaits nothing but at the ends of turns, since each `await` lets the DOM notify.
    async script(text) {
      if (this.fixes.length) this.habits = habitsOf(this);
      await this.checkpoint();
      for (const [at, line] of linesOf(text).entries()) {
        this.at = at;
        const { owner, command } = parse(line);
        if (owner && this.turn && this.turn !== "p" && this.turn !== owner) await this.endTurn();
        if (this.line(owner, command)) {
          await this.endTurn();
          this.put(`${owner} ok`);
        }
        if (!this.signals) await this.checkpoint();
      }
      if (this.turn) await this.endTurn();
    }

    // Lets the DOM run its microtasks.
    async checkpoint() {
      await null;
      await null;
      if (this.stopped) throw new Unrepresentable(this.stopped);
    }

    async endTurn() {
      await this.checkpoint();
      this.queue.endTurn();
      if (this.stopped) throw new Unrepresentable(this.stopped);
      this.turn = null;
    }

    put(line) {
      this.output.push(line + "\n");
    }

    // Carries out one line, and puts its reply. True: it ends the turn, and its reply is still to come.
    line(word, command) {
      if (!word) return this.put("! owner");
      try {
        const values = this.admit(word, command);
        if (command.name === ".") return true;
        const answer = this.carryOut(this.owners.get(word), command, values);
        this.turn = this.turn || word;
        this.put(`${word} ok` + (answer === undefined ? "" : " " + answer));
      } catch (error) {
        const isOfDom = error instanceof this.window.DOMException || "result" in error || error.name === "RangeError";
        const name = error instanceof Refused ? error.message : REFUSALS[error.name] || (isOfDom && error.name);
        if (!name || error instanceof Unrepresentable) throw error;
        this.put(`${word} ! ${name}`);
      }
      return false;
    }

    // The refusals before those of the DOM, in their order. Gives what the words of the command name.
    admit(word, command) {
      refuseWhere(!command, "syntax");
      refuseWhere(word !== "p" && this.turn === "p", "busy");
      const named = [...command.values, command.options.related];
      refuseWhere(named.some((value) => value && value.foreign), "foreign");
      const owner = this.owners.get(word);
      refuseWhere(!owner, "unknown");
      const found = named.map((value) => (value && value.table ? owner[value.table][value.number] : value));
      refuseWhere(named.some((value, i) => value && value.table && !found[i]), "unknown");
      refuseWhere(named.some((value, i) => value && value.part && !this.isKind(value.part, found[i])), "wrong-kind");
      return found;
    }

    isKind(part, node) {
      return KINDS[part].includes(node.nodeType) && (part !== "slot" || node.localName === "slot");
    }

    carryOut(owner, { name, options }, values) {
      const related = values.pop();
      let plans = [];
      this.queue.beginLine(owner, name, values);
      this.atCommand = true;
      try {
        plans = plansFor(this, owner, name, values, options);
        const call = () => COMMANDS[name](this, owner, values, { ...options, related });
        const instead = plans.find((plan) => plan.call);
        return instead ? instead.call(call) : call();
      } catch (error) {
        plans = [];
        this.queue.forgetLine();
        throw error;
      } finally {
        this.atCommand = false;
        this.queue.endLine(owner, plans);
        if (this.stopped) throw new Unrepresentable(this.stopped);
      }
    }

    // The name of a slot in the signals of lines, and the slot of that name.
    keyOf(slot) {
      const { owner, number } = this.names.get(slot);
      return `${owner.word}:${number}`;
    }

    slotOf(key) {
      const [word, number] = key.split(":");
      return this.owners.get(word).nodes[number];
    }

    // The DOM tells a slot that it was signalled: at which line that was, where this run finds it out.
    signalled(event) {
      if (this.atCommand || event.target !== event.currentTarget) return;
      if (this.signals) this.queue.tellSlot(event);
      else (this.found[this.at] = this.found[this.at] || []).push(this.keyOf(event.target));
    }

    // ---- observers and listeners

    // The twin of an observer observes the same, and tells after each line which records there were.
    makeObserver(owner) {
      refuseFull(owner, "observers");
      const number = owner.observers.length;
      const line = (record) => this.recordLine(owner, number, record);
      const observer = { line, number, kept: [], raw: [], fresh: [], twin: new this.window.MutationObserver(() => {}) };
      observer.real = new this.window.MutationObserver((records) => this.queue.tellRecords(owner, observer, this.recordsOf(observer, records).map(line)));
      owner.observers.push(observer);
      return "o" + number;
    }

    // The records that an observer is given: with fixes those that were kept, as the fixes left them, if they are those that its twin had.
    recordsOf(observer, records) {
      const [kept, raw] = [observer.kept.splice(0), observer.raw.splice(0)];
      return this.fixes.length && raw.join("\n") === records.map(observer.line).join("\n") ? kept : records;
    }

    recordLine(owner, number, record) {
      const [show, list] = [(node) => this.show(owner, node), (nodes) => this.showList(owner, nodes)];
      const front = `${owner.word} record o${number} ${record.type} ${show(record.target)}`;
      if (record.type === "attributes") return `${front} name=${record.attributeName} old=${quotedOrNull(record.oldValue)}`;
      if (record.type === "characterData") return `${front} old=${quotedOrNull(record.oldValue)}`;
      const [added, removed] = [list(record.addedNodes), list(record.removedNodes)];
      return `${front} added=${added} removed=${removed} prev=${show(record.previousSibling)} next=${show(record.nextSibling)}`;
    }

    // One function for each node, type, label and phase, so that the DOM knows a listener that is there.
    listenerOf(owner, node, type, label, capture) {
      const key = [this.show(null, node), type, label, capture].join(" ");
      if (!owner.listeners.has(key)) {
        const listener = (event) => this.visit(owner, label, listener, event);
        owner.listeners.set(key, listener);
      }
      return owner.listeners.get(key);
    }

    // The event of a signalled slot is told and acted on where it comes at the end of a turn: not where a run looks for signals, lest a
    // listener keep the event from `signalled`. With fixes a listener of one call is taken away here, and so may be spared a call.
    visit(owner, label, listener, event) {
      if (!this.atCommand && (!this.signals || this.queue.isSilent)) return;
      const show = (node) => this.show(owner, node);
      if (listener.once) listener.action = null;
      if (listener.once && this.fixes.length) event.currentTarget.removeEventListener(event.type, listener, { capture: listener.capture });
      const line = `${owner.word} event ${label} ${event.type} phase=${event.eventPhase} target=${show(event.target)}`
        + ` current=${show(event.currentTarget)} related=${show(event.relatedTarget)} path=${this.showList(owner, event.composedPath())}`;
      if (this.atCommand) this.put(line);
      else this.queue.tellEvent(event, line);
      if (listener.acts === "stop") event.stopPropagation();
      if (listener.acts === "stop-now") event.stopImmediatePropagation();
      if (listener.acts === "cancel") event.preventDefault();
    }
  }

  // The run that is under way.
  let current = null;

  // Ends the comparison of the script that is run behind this command or checkpoint, under the name of a difference.
  function stop(name) {
    current.stopped = current.stopped || name;
  }

  // Runs the script up to where the DOM cannot be brought to where the protocol is. Gives the name of that difference; null: to its end.
  async function upToEnd(run, text) {
    current = run;
    try {
      await run.script(text);
      return null;
    } catch (error) {
      if (!(error instanceof Unrepresentable)) throw error;
      return error.message;
    }
  }

  // Fixes that a run which looks for signals takes: those that carry commands out in other steps.
  const OF_STEPS = ["normalize-steps", "same-text", "insert-node-offset", "document-inside-itself", "contents-left"];

  // What the DOM of the window answers the script, as domrun would write it, and the names of the fixes that were met.
  async function run(window, text, fixes = []) {
    let signals = [];
    if (/^\S+ attach /m.test(text)) {
      const first = new Run(window, null, fixes.filter((fix) => OF_STEPS.includes(fix)));
      await upToEnd(first, text);
      signals = first.found;
    }
    const last = new Run(window, signals, fixes);
    const end = await upToEnd(last, text);
    if (end) last.put("harness: ends at " + end);
    return { output: last.output.join(""), met: [...last.met] };
  }

  // A window of its own in a page.
  const framed = (window) => window.document.body.appendChild(window.document.createElement("iframe")).contentWindow;

  // The same of each script; one on which the harness itself fails says so in its output. `faults` has for each script a wrong behaviour that
  // is planted in a window for it (faults.js).
  async function runAll(window, { scripts, fixes, faults = [] }, windowFor = framed) {
    const answers = [];
    for (const [i, script] of scripts.entries()) {
      const target = faults[i] ? windowFor(window) : window;
      if (faults[i]) plant(target, faults[i]);
      answers.push(await run(target, script, fixes).catch((error) => ({ output: `harness: ${error.stack}\n`, met: [] })));
    }
    return answers;
  }

  exports.owlantimony = { run, runAll, stop };
})(
  typeof module === "object" ? module.exports : globalThis,
  typeof require === "function" ? require("./lines.js").protocol : globalThis.protocol,
  typeof require === "function" ? require("./commands.js").commands : globalThis.commands,
  typeof require === "function" ? require("./fixes.js").fixing : globalThis.fixing,
  typeof require === "function" ? require("./lasting.js").lasting : globalThis.lasting,
  typeof require === "function" ? require("./queue.js").queueing : globalThis.queueing,
  typeof require === "function" ? require("./faults.js").planting : globalThis.planting,
);
