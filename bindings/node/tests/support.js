"use strict";
// What the tests share: whether a package is there, and a page.
const { openDocument } = require("../index");

/** Why a test is skipped, or false: a package that it needs is not there. */
function without(...names) {
  for (const name of names) {
    try {
      require.resolve(name);
    } catch {
      return `${name} is not there`;
    }
  }
  return false;
}

/** A new page with its window, and what stands in its body. */
function page(markup = "") {
  const document = openDocument();
  document.body.innerHTML = markup;
  return { document, window: document.defaultView, body: document.body };
}

/** Wait for the end of the script: promise jobs, and the checkpoint that is queued among them. */
const checkpoint = () => new Promise((resolve) => setImmediate(resolve));

/** The name of what a call throws. */
function thrown(call) {
  try {
    call();
    return "nothing";
  } catch (error) {
    return error.name;
  }
}

module.exports = { without, page, checkpoint, thrown };
