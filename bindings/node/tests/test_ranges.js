"use strict";
// Ranges, iterators, walkers and observers. The expected values are those of the DOM Standard, 4.3, 5 and 6.
const test = require("node:test");
const assert = require("node:assert");
const { page, checkpoint, thrown } = require("./support");

const ends = (range) => [range.startContainer.nodeName, range.startOffset, range.endContainer.nodeName, range.endOffset];

test("a range is live: it moves with what is inserted, removed, split and replaced", () => {
  const { document, body } = page("<p>abcd</p><b>x</b>");
  const [p, text] = [body.firstChild, body.firstChild.firstChild];
  const range = document.createRange();
  assert.deepStrictEqual(ends(range), ["#document", 0, "#document", 0]);
  range.setStart(text, 3);
  range.setEnd(body, 2);
  text.replaceData(0, 2, "");
  assert.deepStrictEqual(ends(range), ["#text", 1, "BODY", 2]);
  body.insertBefore(document.createElement("i"), p);
  assert.deepStrictEqual(ends(range), ["#text", 1, "BODY", 3]);
  text.splitText(0);
  assert.deepStrictEqual([range.startContainer === p.lastChild, range.startOffset], [true, 1]);
  p.remove();
  assert.deepStrictEqual(ends(range), ["BODY", 1, "BODY", 2]);
  assert.strictEqual(thrown(() => range.setStart(body, 9)), "IndexSizeError");
  assert.strictEqual(range.toString(), "x");
});

test("contents are deleted, extracted, cloned, inserted and surrounded", () => {
  const make = () => {
    const { document, body } = page("<p>abc<!--no--><b id=x>def</b></p>");
    const range = document.createRange();
    range.setStart(body.firstChild.firstChild, 1);
    range.setEnd(body.querySelector("b").firstChild, 2);
    const holder = document.createElement("div");
    return { document, body, range, text: (fragment) => { holder.appendChild(fragment); return holder.innerHTML; } };
  };
  const [cloned, extracted, deleted, inserted] = [make(), make(), make(), make()];
  assert.strictEqual(cloned.text(cloned.range.cloneContents()), "bc<!--no--><b id=\"x\">de</b>");
  assert.strictEqual(cloned.body.innerHTML, "<p>abc<!--no--><b id=\"x\">def</b></p>");
  assert.strictEqual(extracted.text(extracted.range.extractContents()), "bc<!--no--><b id=\"x\">de</b>");
  assert.strictEqual(extracted.body.innerHTML, "<p>a<b id=\"x\">f</b></p>");
  assert.deepStrictEqual(ends(extracted.range), ["P", 1, "P", 1]);
  deleted.range.deleteContents();
  assert.strictEqual(deleted.body.innerHTML, "<p>a<b id=\"x\">f</b></p>");
  inserted.range.insertNode(inserted.document.createElement("i"));
  assert.strictEqual(inserted.body.innerHTML, "<p>a<i></i>bc<!--no--><b id=\"x\">def</b></p>");
  assert.strictEqual(thrown(() => inserted.range.surroundContents(inserted.document.createElement("u"))), "InvalidStateError");
  inserted.range.selectNodeContents(inserted.body.firstChild);
  inserted.range.surroundContents(inserted.document.createElement("u"));
  assert.strictEqual(inserted.body.innerHTML, "<p><u>a<i></i>bc<!--no--><b id=\"x\">def</b></u></p>");
});

test("the clones of extractContents keep their namespace", () => {
  const { document, body } = page("<svg><g id='g'><text>abc</text></g></svg>");
  const text = body.querySelector("text").firstChild;
  const range = document.createRange();
  range.setStart(text, 1);
  range.setEnd(body, 1);
  const svg = range.extractContents().firstChild;
  assert.deepStrictEqual([svg.namespaceURI, svg.firstChild.namespaceURI, svg.textContent], [body.firstChild.namespaceURI, body.firstChild.namespaceURI, "bc"]);
});

test("points are compared", () => {
  const { document, body } = page("<p>a</p><p>b</p>");
  const [one, two] = [document.createRange(), document.createRange()];
  one.selectNode(body.firstChild);
  two.selectNodeContents(body.lastChild);
  const { START_TO_START, START_TO_END, END_TO_END, END_TO_START } = one;
  assert.deepStrictEqual([START_TO_START, START_TO_END, END_TO_END, END_TO_START].map((how) => one.compareBoundaryPoints(how, two)), [-1, -1, -1, -1]);
  assert.deepStrictEqual([two.comparePoint(body, 0), two.comparePoint(body.lastChild, 0), two.comparePoint(body, 2)], [-1, 0, 1]);
  assert.deepStrictEqual([one.intersectsNode(body.firstChild), one.intersectsNode(body.lastChild), one.isPointInRange(body, 1)], [true, false, true]);
  assert.strictEqual(one.commonAncestorContainer, body);
  assert.strictEqual(two.cloneRange().toString(), "b");
  assert.strictEqual(thrown(() => one.compareBoundaryPoints(7, two)), "NotSupportedError");
  assert.strictEqual(document.createRange().createContextualFragment("<i>x</i>").firstChild.localName, "i");
});

test("an iterator follows removals, and a filter that finds nothing leaves it where it was", () => {
  const { document, window, body } = page("<a></a><b></b><i></i>");
  const { NodeFilter } = window;
  const iterator = document.createNodeIterator(body, NodeFilter.SHOW_ELEMENT);
  const names = [iterator.nextNode(), iterator.nextNode(), iterator.nextNode()].map((node) => node.localName);
  assert.deepStrictEqual(names, ["body", "a", "b"]);
  iterator.referenceNode.remove();
  assert.deepStrictEqual([iterator.referenceNode.localName, iterator.pointerBeforeReferenceNode], ["a", false]);
  assert.strictEqual(iterator.nextNode().localName, "i");
  assert.strictEqual(iterator.nextNode(), null);
  assert.strictEqual(iterator.previousNode().localName, "i");
  const none = document.createNodeIterator(body, NodeFilter.SHOW_ALL, (node) => (node.localName === "a" ? NodeFilter.FILTER_ACCEPT : NodeFilter.FILTER_REJECT));
  assert.strictEqual(none.nextNode().localName, "a");
  assert.deepStrictEqual([none.nextNode(), none.referenceNode.localName, none.pointerBeforeReferenceNode], [null, "a", false]);
  assert.deepStrictEqual([none.previousNode().localName, none.previousNode(), none.referenceNode.localName, none.pointerBeforeReferenceNode], ["a", null, "a",
    true]);
  assert.deepStrictEqual([none.nextNode().localName, none.nextNode()], ["a", null]);
});

test("a walker skips, rejects and moves to siblings through what is skipped", () => {
  const { document, window, body } = page("<p><b>1</b><i>2</i></p><ul><li>3</li></ul>");
  const { NodeFilter } = window;
  const filter = { acceptNode: (node) => (node.localName === "p" ? NodeFilter.FILTER_SKIP : node.localName === "ul" ? NodeFilter.FILTER_REJECT
    : NodeFilter.FILTER_ACCEPT) };
  const walker = document.createTreeWalker(body, NodeFilter.SHOW_ELEMENT, filter);
  assert.strictEqual(walker.firstChild().localName, "b");
  assert.strictEqual(walker.nextSibling().localName, "i");
  assert.strictEqual(walker.nextSibling(), null);
  assert.strictEqual(walker.parentNode().localName, "body");
  assert.deepStrictEqual([walker.nextNode().localName, walker.nextNode().localName, walker.nextNode()], ["b", "i", null]);
  assert.deepStrictEqual([walker.previousNode().localName, walker.previousNode().localName, walker.previousNode()], ["b", "body", null]);
  walker.currentNode = body.querySelector("li");
  assert.strictEqual(walker.currentNode.localName, "li");
});

test("records tell what came, what went and what was before", async () => {
  const { document, window, body } = page("<p class=a>one</p><b></b>");
  const [p, b] = body.childNodes;
  let told;
  const observer = new window.MutationObserver((records, from) => { told = [records, from === observer]; });
  observer.observe(body, { childList: true, subtree: true, attributeFilter: ["class", "xlink:href"], characterDataOldValue: true, attributeOldValue: true });
  p.setAttribute("class", "b");
  p.setAttribute("title", "not told");
  p.firstChild.data = "two";
  const i = body.insertBefore(document.createElement("i"), b);
  p.remove();
  await checkpoint();
  const [records, isSame] = told;
  assert.strictEqual(isSame, true);
  assert.deepStrictEqual(records.map((record) => record.type), ["attributes", "characterData", "childList", "childList"]);
  assert.deepStrictEqual([records[0].target, records[0].attributeName, records[0].oldValue, records[0].attributeNamespace], [p, "class", "a", null]);
  assert.deepStrictEqual([records[1].target, records[1].oldValue], [p.firstChild, "one"]);
  assert.deepStrictEqual([records[2].addedNodes[0], records[2].previousSibling, records[2].nextSibling, records[2].removedNodes.length], [i, p, b, 0]);
  assert.deepStrictEqual([records[3].removedNodes[0], records[3].addedNodes.length, records[3].nextSibling], [p, 0, i]);
  b.remove();
  assert.deepStrictEqual([observer.takeRecords().length, observer.takeRecords().length], [1, 0]);
  observer.disconnect();
  i.remove();
  assert.strictEqual(observer.takeRecords().length, 0);
  assert.strictEqual(thrown(() => observer.observe(body, {})), "TypeError");
  assert.strictEqual(thrown(() => observer.observe(body, { attributes: false, attributeOldValue: true, childList: true })), "TypeError");
});

test("what an observer causes is told in a further notification", async () => {
  const { window, body } = page("<p></p>");
  const counts = [];
  new window.MutationObserver((records) => {
    counts.push(records.length);
    if (counts.length < 3) body.firstChild.setAttribute("n", `${counts.length}`);
  }).observe(body, { attributes: true, subtree: true });
  body.setAttribute("a", "1");
  body.setAttribute("a", "2");
  await checkpoint();
  assert.deepStrictEqual(counts, [2, 1, 1]);
});
