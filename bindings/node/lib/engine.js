"use strict";
// The addon, which makes the engine's typed calls, and what its answers mean. The variable OWLANTIMONY_NODE names another addon.
//
// Each call takes a *door* first: the number of an owner in one of the engine's documents. A call reaches that owner's nodes alone, by their numbers.
// It answers a number from 0 up, NONE, FOREIGN (the owner and the number stand in `answers`), or, past REFUSED, what the engine refused.
const path = require("node:path");
const engine = require(process.env.OWLANTIMONY_NODE ?? path.join(__dirname, "..", "out", "owlantimony.node"));

const NONE = -1;
const FOREIGN = -2;
const REFUSED = -100;
const CALLED = 2;

/** What the engine refuses, by number: the exception's name in the DOM Standard, and a message. */
const REFUSALS = {
  1: ["SyntaxError", "the call is not one of this owner's"],
  2: ["InvalidStateError", "a callback is under way"],
  3: ["WrongDocumentError", "the node is another owner's"],
  4: ["InvalidStateError", "there is no such node or object any more"],
  5: ["TypeError", "the node is of another kind"],
  6: ["HierarchyRequestError", "the node can't stand there"],
  7: ["NotFoundError", "the node is not a child of this node"],
  8: ["NotSupportedError", "not supported"],
  9: ["InvalidCharacterError", "the name has a character that names don't have"],
  10: ["SyntaxError", "not a selector that the engine takes"],
  11: ["IndexSizeError", "the offset is past the end"],
  12: ["TypeError", "nothing is to be observed, or the related node stands in another tree"],
  13: ["QuotaExceededError", "past a limit of the engine"],
  14: ["RangeError", "out of memory"],
  15: ["InvalidStateError", "the document is closed"],
  20: ["TypeError", "Illegal invocation"],
};
const SIMPLE = { TypeError, RangeError };

/** Throw the exception of an answer that is a refusal. */
function refuse(answer) {
  const [name, message] = REFUSALS[REFUSED - answer] ?? ["UnknownError", `status ${REFUSED - answer}`];
  if (name in SIMPLE) throw new SIMPLE[name](message);
  throw new DOMException(message, name);
}

/** Give an answer back, or throw what the engine refused. */
function checked(answer) {
  if (answer <= REFUSED) refuse(answer);
  return answer;
}

let answers = new Int32Array(1 << 12);
engine.lend(answers);

/** The array with the answers of the call before. */
function answered() {
  return answers;
}

/** Make a call that puts a list into the answers, once more with more room if it is too long, and give the list as an array. A place has `width` numbers. */
function listed(ask, width = 1) {
  let count = checked(ask());
  if (count * width > answers.length) {
    answers = new Int32Array(2 * count * width);
    engine.lend(answers);
    count = checked(ask());
  }
  return Array.from(answers.subarray(0, count * width));
}

module.exports = { engine, NONE, FOREIGN, CALLED, checked, refuse, answered, listed };
