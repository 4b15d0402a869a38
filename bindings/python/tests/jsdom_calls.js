// The calls of test_as_jsdom.py in jsdom: scripts come on standard input, and what each call answers is written, with the trees that are left.
"use strict";
const { JSDOM } = require("jsdom");

function outline(node) {
  if (node.nodeType === 3) return `'${node.data}'`;
  if (node.nodeType === 8) return `<!--${node.data}-->`;
  return `${node.nodeName}(${[...node.childNodes].map(outline).join(",")})`;
}

function opened() {
  const { document } = new JSDOM("<r/>", { contentType: "application/xml" }).window;
  const nodes = [document.documentElement, ...[..."abcdef"].map((name) => document.createElementNS(null, name))];
  const others = [document.createTextNode("x"), document.createTextNode("y"), document.createComment("c")];
  return { nodes: [...nodes, ...others], ranges: [document.createRange(), document.createRange()] };
}

function call({ nodes, ranges }, [method, at, given]) {
  const things = [...nodes, ...ranges];
  if (!(method in things[at])) return ["no such call", []];
  const words = given.map((word) => (typeof word === "number" ? things[word] : Array.isArray(word) ? word[0] : word));
  let answer;
  try {
    answer = things[at][method](...words) ?? null;
  } catch (fault) {
    answer = fault.name;
  }
  if (answer !== null && answer.nodeType) answer = outline(answer);
  if (method === "compareDocumentPosition" && answer & 1) answer = 33; // the order of two trees is the implementation's own
  return [answer, [...new Set(nodes.map((node) => outline(node.getRootNode())))].sort()];
}

const scripts = JSON.parse(require("fs").readFileSync(0, "utf8"));
console.log(JSON.stringify(scripts.map((script) => {
  const things = opened();
  return script.map((one) => call(things, one));
})));
