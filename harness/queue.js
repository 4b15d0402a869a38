// The end of a turn: microtasks, records and the events of signalled slots, as the DOM's own queue runs them.
//
// A DOM has one notification for all; by the protocol each owner has its own. So what the DOM tells of each owner is kept together, and what
// was queued first stands where the DOM put it. The notification of another owner, whose first record or signal came behind more
// microtasks, stands behind these.
"use strict";
(function (exports, { endTurn, inOrder }, { signalsOf, namesOf }) {
  // The commands that change a tree, an attribute or data.
  const CHANGES = ["append", "insert", "replace", "remove", "adopt", "normalize", "text", "set", "unset", "data", "replace-data", "split",
    "delete", "extract", "insert-node"];

  class Queue {
    constructor(run) {
      this.run = run;
      this.clear();
    }

    clear() {
      Object.assign(this, { log: [], pending: [], microtasks: 0, firsts: new Map(), isSilent: false, isAnew: false });
      [this.places, this.signalled, this.told, this.names] = [new Map(), new Set(), new Set(), new Set()];
    }

    // ---- lines

    // Before a command: what it signals and takes by the Standard's text.
    beginLine(owner, name, values) {
      this.isChange = CHANGES.includes(name);
      const { run } = this;
      const isWanted = run.signals && (run.owners.size > 1 || (run.fixes.length > 0 && owner.observers.length > 0));
      this.wanted = isWanted ? signalsOf(run, name, values) : null;
    }

    forgetLine() {
      this.wanted = null;
      this.isChange = false;
    }

    // Behind a command: queues the notifications that it asks for.
    endLine(owner, plans) {
      for (const observer of owner.observers) {
        observer.fresh = observer.twin.takeRecords();
        observer.raw.push(...observer.fresh.map(observer.line));
      }
      for (const { fix, after } of plans) if (after && after(owner.observers)) this.run.met.add(fix);
      const taken = owner.observers.filter(({ fresh }) => fresh.length);
      for (const observer of taken) observer.kept.push(...observer.fresh);
      this.pending.push(...inOrder(taken.filter(({ isPending }) => !isPending), this.wanted ? this.wanted.stepOf : () => 0));
      for (const observer of taken) observer.isPending = true;
      if (this.isChange) this.noteFirst("early-notification");
      for (const next of this.ownersOf(owner, taken)) if (!this.places.has(next)) this.places.set(next, this.microtasks);
    }

    // The owners whose notifications the line queues: that of the records stands where the first of them does among the signals.
    ownersOf(owner, taken) {
      const order = [];
      for (const slot of this.signalsOfLine()) {
        this.signalled.add(slot);
        if (taken.some(({ fresh: [record] }) => this.wanted && this.wanted.isBefore(record, slot))) order.push(owner);
        order.push(this.run.names.get(slot).owner);
      }
      return taken.length ? [...order, owner] : order;
    }

    // The slots that the line signals: as the DOM does, or as the Standard has it where they differ by named differences alone.
    signalsOfLine() {
      const told = ((this.run.signals || [])[this.run.at] || []).map((key) => this.run.slotOf(key));
      for (const slot of told) this.told.add(slot);
      const names = this.wanted && namesOf(told, this.wanted, this.run.fixes);
      if (!names || names.length === 0) return told;
      for (const name of names) this.names.add(name);
      this.isSilent = true;
      return [...this.wanted.slots.keys()];
    }

    // What queues a notification by a named difference came here first, behind so many microtasks.
    noteFirst(name) {
      if (!this.firsts.has(name)) this.firsts.set(name, this.microtasks);
    }

    addMicrotask(owner, label) {
      this.microtasks += 1;
      this.run.window.queueMicrotask(() => this.log.push({ lines: [`${owner.word} micro ${label}`] }));
    }

    // ---- what the DOM tells at the checkpoint

    tellRecords(owner, observer, lines) {
      this.log.push({ owner, observer, lines });
    }

    // A slot's event begins: what its listeners tell belongs to it.
    tellSlot(event) {
      this.entryOf(event);
    }

    tellEvent(event, line) {
      this.entryOf(event).lines.push(line);
    }

    entryOf(event) {
      const last = this.log[this.log.length - 1];
      if (last && last.event === event) return last;
      const { owner } = this.run.names.get(event.target);
      const isAsWanted = event.bubbles && !event.composed && !event.cancelable;
      const entry = { owner, event, slot: event.target, isAsWanted, lines: [] };
      this.log.push(entry);
      return entry;
    }

    // ---- the end of a turn

    endTurn() {
      const { run } = this;
      if (this.isSilent) this.tellAnew();
      if (run.fixes.includes("observer-order")) for (const owner of run.owners.values()) this.orderObservers(owner);
      for (const { lines } of this.inPlaces()) for (const line of lines) run.put(line);
      for (const owner of run.owners.values()) {
        if (endTurn(owner, ({ isPending }) => isPending)) run.met.add("transients");
        for (const observer of owner.observers) observer.isPending = false;
      }
      this.clear();
    }

    // What the DOM told, in the order in which it is put: each microtask with what is put before it.
    inPlaces() {
      const [entries, microtasks] = [[], []];
      for (const entry of this.log) {
        if (entry.owner) entries.push({ ...entry, place: this.placeOf(entry.owner, microtasks.length), rank: [...this.places.keys()].indexOf(entry.owner) });
        else microtasks.push(entry);
      }
      entries.sort((a, b) => a.place - b.place || a.rank - b.rank);
      return [...microtasks, { lines: [] }].flatMap((one, i) => [...entries.filter(({ place }) => Math.min(place, microtasks.length) === i), one]);
    }

    // Before which microtask stands what the DOM told of an owner before microtask number `told`. A notification that was queued by a change
    // which no observer took goes to where it is queued by the Standard's text.
    placeOf(owner, told) {
      const place = this.places.get(owner);
      if (place === undefined) return told;
      if (this.isAnew) return place;
      const isEarly = ([fix, first]) => this.run.fixes.includes(fix) && told < place && told === first;
      const [name] = [...this.firsts].find(isEarly) || [];
      if (name) {
        if (place === Math.min(...this.places.values())) this.run.met.add(name);
        return place;
      }
      return place === Math.min(...this.places.values()) ? told : Math.max(told, place);
    }

    // Where the DOM told just the slots that its lines signal, events are sent to those that are to be told, in their order.
    tellAnew() {
      const told = this.log.filter(({ event }) => event);
      const isKnown = told.length === this.told.size && told.every(({ slot, isAsWanted }) => isAsWanted && this.told.has(slot));
      this.log = this.log.filter(({ event }) => !event);
      this.isSilent = false;
      if (!isKnown) return;
      this.isAnew = true;
      for (const name of this.names) this.run.met.add(name);
      for (const slot of this.signalled) slot.dispatchEvent(new this.run.window.Event("slotchange", { bubbles: true }));
    }

    // An owner's observers that the DOM notified in the order in which they were made are put in that in which they became pending.
    orderObservers(owner) {
      const isRecords = (entry) => entry.owner === owner && entry.observer;
      const told = this.log.filter(isRecords);
      const isAsMade = told.every(({ observer }, i) => i === 0 || told[i - 1].observer.number < observer.number);
      const pending = this.pending.filter((observer) => told.some((entry) => entry.observer === observer));
      const wanted = pending.map((observer) => told.find((entry) => entry.observer === observer));
      if (!isAsMade || wanted.length !== told.length || wanted.every((entry, i) => entry === told[i])) return;
      this.log = this.log.map((entry) => (isRecords(entry) ? wanted.shift() : entry));
      this.run.met.add("observer-order");
    }
  }

  exports.queueing = { Queue };
})(
  typeof module === "object" ? module.exports : globalThis,
  typeof require === "function" ? require("./lasting.js").lasting : globalThis.lasting,
  typeof require === "function" ? require("./slots.js").slots : globalThis.slots,
);
