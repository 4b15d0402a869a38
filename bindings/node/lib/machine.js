"use strict";
// One of the engine's documents, with the realms of its owners: the page and its components. Here stand the loop by which the engine calls listeners,
// observers and microtasks, and the checkpoint.
const { engine, NONE, CALLED, checked, refuse, answered, listed } = require("./engine");

// Kinds of what is told, and the layout of an event in the answers.
const EVENT = 1;
const MICROTASK = 5;
const [OWNER, LABEL, PHASE, FLAGS, TARGET, CURRENT, RELATED] = [1, 2, 3, 4, 5, 7, 9];

/** Closes what nobody can reach any more: a machine is reached by each of its nodes. */
const forgotten = new FinalizationRegistry((door) => engine.close(door));

class Machine {
  constructor() {
    this.door = checked(engine.open());
    forgotten.register(this, this.door, this);
    this.realms = [];
    this.structure = 1; // a count of changes of trees: links that are kept are right while it stands
    this.version = 1; // a count of all changes, for lists that depend on attributes too
    this.isWatched = false; // whether there are observers, or components with slots
    this.isDue = false; // whether a checkpoint is queued
    this.isOpen = true;
  }

  /** Note that trees may have changed. Tasks that this has queued run at the checkpoint. */
  changed() {
    this.structure = (this.structure + 1) | 0;
    this.altered();
  }

  /** Note that attributes or data may have changed. */
  altered() {
    this.version++;
    if (this.isWatched && !this.isDue && this.isOpen) this.makeDue();
  }

  /** Queue a checkpoint after the promise jobs that are queued already. */
  makeDue() {
    this.isDue = true;
    queueMicrotask(() => {
      this.isDue = false;
      if (this.isOpen) this.checkpoint();
    });
  }

  /** Run the tasks that wait. While a callback is under way nothing is run: its script has not ended. */
  checkpoint() {
    const answer = engine.checkpoint(this.door);
    if (answer === CALLED) this.run(null, answer);
  }

  /** Fire an event at a node, and call whom the engine calls. Gives false exactly where it was cancelled. */
  dispatch(realm, id, type, flags, related, event) {
    const frame = { events: new Map([[realm, event]]), event: realm.stateOf(event) };
    return this.run(frame, engine.dispatch(realm.door, id, type, flags, related ?? NONE)) === 1;
  }

  /** Run the callbacks that are due, until what was begun is over. */
  run(frame, begun) {
    let answer = begun;
    let fired = frame;
    while (answer === CALLED) {
      const answers = answered();
      const realm = this.realms[answers[OWNER]];
      if (answers[0] === EVENT) {
        if (frame === null) fired = this.signalled(fired, answers);
        this.callListener(realm, fired, answers);
      } else if (answers[0] === MICROTASK) realm.callTask(answers[LABEL]);
      else realm.callObserver(answers[LABEL], engine.calledRecords(realm.door));
      answer = engine.giveBack(realm.door);
    }
    return answer < 0 ? refuse(answer) : answer;
  }

  /** The event that the engine itself fires at a slot: one object for all listeners that are called in a row at the same target. */
  signalled(last, answers) {
    const [owner, target] = [answers[TARGET], answers[TARGET + 1]];
    if (last !== null && last.owner === owner && last.target === target) return last;
    return { owner, target, events: new Map(), event: null };
  }

  /** Call a listener with its owner's view of an event. */
  callListener(realm, frame, answers) {
    let event = frame.events.get(realm);
    if (event === undefined) {
      event = realm.viewOf(frame.event, answers[FLAGS]);
      frame.events.set(realm, event);
    }
    const [label, phase] = [answers[LABEL], answers[PHASE]];
    const target = realm.shown(answers[TARGET], answers[TARGET + 1]);
    const current = realm.shown(answers[CURRENT], answers[CURRENT + 1]);
    const related = realm.shown(answers[RELATED], answers[RELATED + 1]);
    // the path, as owners and numbers, is the same for all listeners of an owner
    const path = realm.hasPath(event) ? null : listed(() => engine.calledPath(realm.door), 2);
    realm.callListener(label, event, phase, target, current, related, path);
  }

  /** End the document: every later call is an InvalidStateError. */
  close() {
    if (!this.isOpen) return;
    this.isOpen = false;
    this.changed(); // what is kept is not right any more
    forgotten.unregister(this);
    engine.close(this.door);
  }
}

module.exports = { Machine };
