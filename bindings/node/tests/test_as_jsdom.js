"use strict";
// Random calls here and in jsdom: what each gives or throws, and the trees after it. Records, the ends of ranges and slots are not compared: jsdom has others
// than the Standard (docs/PROTOCOL.md, "Where the engine does what browsers do not").
const test = require("node:test");
const assert = require("node:assert");
const { without } = require("./support");
const { show } = require("./worlds");
const { randomness, Side, calls } = require("./random_calls");
const { openDocument, closeDocument } = require("../index");

const SEEDS = 30;
const CALLS = 120;

/** All trees of a side, by their roots in the order in which they were named. */
const trees = (side) => side.nodes.map((node) => (node.parentNode === null ? show(node) : ""));

test("random calls give what they give in jsdom", { skip: without("jsdom") }, () => {
  const { JSDOM } = require("jsdom");
  for (let seed = 0; seed < SEEDS; seed++) {
    const random = randomness(seed);
    const table = calls(random);
    const sides = [new Side(openDocument()), new Side(new JSDOM("<html><head></head><body></body></html>").window.document)];
    for (let made = 0; made < CALLS; made++) {
      const call = random.from(table)();
      const [here, there] = sides.map((side) => [side.done(call), ...trees(side)]);
      assert.deepStrictEqual(here, there, `seed ${seed}, call ${made}: ${call}`);
    }
    closeDocument(sides[0].document);
    sides[1].window.close();
  }
});
