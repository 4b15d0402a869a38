// The steps of bindings/measure in jsdom. Writes the milliseconds of each.
// Usage: node bindings/measure.js COUNT
"use strict";
const { JSDOM } = require("jsdom");

function build(document, count) {
  const root = document.appendChild(document.createElement("main"));
  let section;
  for (let made = 1; made < count; made++) {
    if (made % 13 === 1) {
      section = root.appendChild(document.createElement("section"));
      continue;
    }
    const element = section.appendChild(document.createElement(made % 13 % 3 ? "p" : "a"));
    element.setAttribute("class", made % 2 ? "odd" : "even");
    element.appendChild(document.createTextNode(`word ${made}`));
  }
}

function walk(document, count) {
  let node = document.documentElement, elements = 0;
  while (node !== null) {
    elements += node.nodeType === 1;
    let following = node.firstChild;
    while (node !== null && following === null) {
      following = node.nextSibling;
      node = following === null ? node.parentNode : node;
    }
    node = following;
  }
  if (elements !== count) throw new Error(`${elements}`);
}

function query(document, count) {
  for (let round = 0; round < 10; round++) {
    let found = 0;
    for (const name of ["main", "section", "p", "a"]) found += document.getElementsByTagName(name).length;
    if (found !== count) throw new Error(`${found}`);
  }
}

function change(document) {
  for (const section of [...document.documentElement.childNodes]) {
    section.appendChild(section.firstChild);
    if (section.firstChild !== null && section.firstChild.nextSibling !== null) section.removeChild(section.firstChild);
    for (const child of [...section.childNodes]) child.setAttribute("class", "changed");
  }
}

const count = Number(process.argv[2]);
const document = new JSDOM("").window.document;
document.removeChild(document.documentElement);
for (const step of [build, walk, query, change]) {
  const start = performance.now();
  step(document, count);
  console.log(performance.now() - start);
}
