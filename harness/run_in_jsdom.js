// Runs scripts in jsdom, each in a window of its own: reads { scripts, fixes, faults } as JSON from standard input, and writes a JSON list of
// their answers.
"use strict";
const { JSDOM } = require("jsdom");
const { findSlot } = require("jsdom/lib/jsdom/living/helpers/shadow-dom.js");
const { implementation: Node } = require("jsdom/lib/jsdom/living/nodes/Node-impl.js");
const { owlantimony } = require("./adapter.js");

// A node of jsdom keeps the slot that it was assigned to when it is assigned to none any more, and the path of an event goes over that
// slot. With fixes the comparison ends there. Without them it goes on, up to where a path comes to a node again, as where the slot's host
// is below the target by now: there jsdom would go round without an end, so the path is ended. Nothing is thrown, since jsdom also asks
// for paths while it notifies, where no one would catch it.
function watchPaths(fixes) {
  const { _getTheParent: parentOf } = Node.prototype;
  const passed = new WeakMap();
  Node.prototype._getTheParent = function (event) {
    const nodes = passed.get(event) || new Set();
    const isKept = this._assignedSlot && this._assignedSlot !== findSlot(this);
    if (nodes.has(this) || (isKept && fixes.length)) {
      owlantimony.stop("slot-kept");
      return null;
    }
    passed.set(event, nodes.add(this));
    return parentOf.call(this, event);
  };
}

async function runEach({ scripts, fixes, faults }) {
  const answers = [];
  for (const [i, script] of scripts.entries()) {
    const { window } = new JSDOM("");
    answers.push(...await owlantimony.runAll(window, { scripts: [script], fixes, faults: faults.slice(i, i + 1) }, () => window));
    window.close();
    await new Promise(setImmediate);
  }
  return answers;
}

const given = JSON.parse(require("fs").readFileSync(0, "utf8"));
watchPaths(given.fixes);
runEach(given).then((answers) => process.stdout.write(JSON.stringify(answers)));
