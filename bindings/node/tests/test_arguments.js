"use strict";
// 10,000 random calls with wrong arguments end in the DOM's exceptions, and never in a crash.
const test = require("node:test");
const assert = require("node:assert");
const path = require("node:path");
const { spawnSync } = require("node:child_process");

test("random calls with wrong arguments", () => {
  const { status, stdout, signal } = spawnSync(process.execPath, [path.join(__dirname, "wrong_arguments.js"), "10000", "7"], { encoding: "utf8" });
  assert.deepStrictEqual([signal, status], [null, 0], stdout.slice(0, 2000));
  assert.match(stdout, /^TypeError \d+$/m);
  assert.match(stdout, /^HierarchyRequestError \d+$/m);
});
