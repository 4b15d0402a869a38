"use strict";
// A document for Node over the engine, by the DOM's own names. Until the proved library exports typed calls, it runs over an unproved stand-in.
const { Machine } = require("./lib/machine");
const { Realm } = require("./lib/realm");

const PAGE = 0;
const machines = new WeakMap();

/** Open a document, with html, head and body, or with what a page of HTML has. Its window is `defaultView`. */
function openDocument(markup) {
  const machine = new Machine();
  const realm = new Realm(machine, machine.door, PAGE);
  if (markup === undefined) realm.setSkeleton(realm.document);
  else realm.setPage(`${markup}`);
  machines.set(realm.document, machine);
  return realm.document;
}

function machineOf(document) {
  const machine = machines.get(document);
  if (machine === undefined) throw new TypeError("a document that openDocument has given is expected");
  return machine;
}

/** Run what waits for the end of the script: microtasks of documents, observers, slotchange. Node's event loop does it by itself. */
function checkpoint(document) {
  machineOf(document).checkpoint();
}

/** End a document and free its memory. Later calls of it throw InvalidStateError. */
function closeDocument(document) {
  machineOf(document).close();
}

module.exports = { openDocument, closeDocument, checkpoint };
