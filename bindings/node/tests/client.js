"use strict";
// Runs the script of a client over a kind of document, and prints what it tells, a line for each thing.
// Usage: node client.js owlantimony|jsdom NAME
const { world, show, settled } = require("./worlds");

const [kind, name] = process.argv.slice(2);
const window = world(kind);
const { document } = window;
const lines = [];
const log = (...words) => lines.push(words.map((word) => (typeof word === "string" ? word : JSON.stringify(word))).join(" "));

/** Fire a click that bubbles and may be cancelled, and tell what came of it. */
function click(node, words = {}) {
  const event = new window.MouseEvent("click", { bubbles: true, cancelable: true, ...words });
  log("click", node.tagName, "answered", node.dispatchEvent(event), "prevented", event.defaultPrevented);
}

async function main() {
  await require(`./clients/${name}`)({ window, document, show, log, click, settled });
  console.log(lines.join("\n"));
  process.exit(0);
}

main().catch((error) => {
  console.log(lines.join("\n"));
  console.log("FAILED", error);
  process.exit(1);
});
