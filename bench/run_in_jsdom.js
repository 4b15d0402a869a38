// Reads what to measure as JSON, times it in a window of jsdom, and writes what was measured as JSON.
"use strict";
const { JSDOM } = require("jsdom");
const { direct } = require("./direct.js");
const given = JSON.parse(require("fs").readFileSync(0, "utf8"));

direct.measure(new JSDOM("").window, given).then((measured) => process.stdout.write(JSON.stringify(measured)));
