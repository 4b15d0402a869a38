"use strict";
// Range of the DOM Standard. Its ends are the engine's, which moves them with each change.
const { engine, checked, answered } = require("./engine");
const { fragmentOf } = require("./markup");

const [START_TO_START, START_TO_END, END_TO_END, END_TO_START] = [0, 1, 2, 3];

/** The length of a node in the sense of ranges. */
const lengthOf = (node) => (node.nodeType === 3 || node.nodeType === 8 ? node.length : node.childNodes.length);

/** A node's place among the children of its parent. */
function indexOf(node) {
  let index = 0;
  for (let at = node.previousSibling; at !== null; at = at.previousSibling) index++;
  return index;
}

/** Compare two points of one tree: -1, 0 or 1 as the first stands before, at or after the second. */
function compare(node, offset, other, otherOffset) {
  if (node === other) return Math.sign(offset - otherOffset);
  const position = node.compareDocumentPosition(other);
  if (position & 0x02) return -compare(other, otherOffset, node, offset);
  if (position & 0x10) {
    let child = other;
    while (child.parentNode !== node) child = child.parentNode;
    if (indexOf(child) < offset) return 1;
  }
  return -1;
}

module.exports = (realm) => {
  const { ID, door, machine, at } = realm;
  const NUMBER = Symbol("range");
  const dropped = new FinalizationRegistry((number) => machine.isOpen && engine.rangeDrop(door, number));

  /** The ends of a range. */
  function points(range) {
    checked(engine.rangePoints(door, range[NUMBER]));
    const [start, startOffset, end, endOffset] = answered();
    return { start: at(start), startOffset, end: at(end), endOffset };
  }

  function parentOf(node) {
    realm.idOf(node);
    if (node.parentNode === null) throw new DOMException("the node has no parent", "InvalidNodeTypeError");
    return node.parentNode;
  }

  function set(range, call, node, offset) {
    const id = realm.idOf(node);
    if (node.nodeType === 2) throw new DOMException("an attribute has no ranges", "InvalidNodeTypeError");
    checked(call(door, range[NUMBER], id, offset >>> 0));
  }

  /** The nodes from a child of `common` down to a node: those of which a range between their ends holds a part. */
  function partial(common, node) {
    const nodes = [];
    for (let each = node; each !== common; each = each.parentNode) nodes.unshift(each);
    return nodes;
  }

  class Range {
    constructor() {
      this[NUMBER] = checked(engine.createRange(door));
      dropped.register(this, this[NUMBER]);
      if (realm.document !== undefined && realm.document[ID] !== 0) this.setStart(realm.document, 0);
    }

    get startContainer() { return points(this).start; }
    get startOffset() { return points(this).startOffset; }
    get endContainer() { return points(this).end; }
    get endOffset() { return points(this).endOffset; }

    get collapsed() {
      const { start, startOffset, end, endOffset } = points(this);
      return start === end && startOffset === endOffset;
    }

    get commonAncestorContainer() {
      const { start, end } = points(this);
      let common = start;
      while (!common.contains(end)) common = common.parentNode;
      return common;
    }

    setStart(node, offset) { set(this, engine.rangeStart, node, offset); }
    setEnd(node, offset) { set(this, engine.rangeEnd, node, offset); }
    setStartBefore(node) { this.setStart(parentOf(node), indexOf(node)); }
    setStartAfter(node) { this.setStart(parentOf(node), indexOf(node) + 1); }
    setEndBefore(node) { this.setEnd(parentOf(node), indexOf(node)); }
    setEndAfter(node) { this.setEnd(parentOf(node), indexOf(node) + 1); }
    collapse(toStart = false) { checked(engine.rangeCollapse(door, this[NUMBER], toStart ? 1 : 0)); }

    selectNode(node) {
      const parent = parentOf(node);
      const index = indexOf(node);
      this.setStart(parent, index);
      this.setEnd(parent, index + 1);
    }

    selectNodeContents(node) {
      this.setStart(node, 0);
      this.setEnd(node, lengthOf(node));
    }

    compareBoundaryPoints(how, other) {
      if (!(other instanceof Range)) throw new TypeError("a Range is expected");
      if (![0, 1, 2, 3].includes(how)) throw new DOMException("no such comparison", "NotSupportedError");
      const [mine, its] = [points(this), points(other)];
      if (mine.start.getRootNode() !== its.start.getRootNode()) throw new DOMException("the ranges stand in two trees", "WrongDocumentError");
      const isMyStart = how === START_TO_START || how === END_TO_START;
      const isItsStart = how === START_TO_START || how === START_TO_END;
      const [node, offset] = isMyStart ? [mine.start, mine.startOffset] : [mine.end, mine.endOffset];
      const [against, place] = isItsStart ? [its.start, its.startOffset] : [its.end, its.endOffset];
      return compare(node, offset, against, place);
    }

    comparePoint(node, offset) {
      realm.idOf(node);
      const { start, startOffset, end, endOffset } = points(this);
      if (node.getRootNode() !== start.getRootNode()) throw new DOMException("the node stands in another tree", "WrongDocumentError");
      if (offset >>> 0 > lengthOf(node)) throw new DOMException("the offset is past the end", "IndexSizeError");
      if (compare(node, offset >>> 0, start, startOffset) < 0) return -1;
      return compare(node, offset >>> 0, end, endOffset) > 0 ? 1 : 0;
    }

    isPointInRange(node, offset) {
      realm.idOf(node);
      return node.getRootNode() === this.startContainer.getRootNode() && this.comparePoint(node, offset) === 0;
    }

    intersectsNode(node) {
      realm.idOf(node);
      const { start, startOffset, end, endOffset } = points(this);
      if (node.getRootNode() !== start.getRootNode()) return false;
      const parent = node.parentNode;
      if (parent === null) return true;
      const index = indexOf(node);
      return compare(parent, index, end, endOffset) < 0 && compare(parent, index + 1, start, startOffset) > 0;
    }

    deleteContents() {
      checked(engine.rangeDelete(door, this[NUMBER]));
      machine.changed();
    }

    extractContents() {
      const { start, end } = points(this);
      const common = this.commonAncestorContainer;
      const [firsts, lasts] = [partial(common, start), partial(common, end)];
      const fragment = at(checked(engine.rangeExtract(door, this[NUMBER])));
      machine.changed();
      contents.named(fragment, firsts, "first");
      contents.named(fragment, lasts, "last");
      return fragment;
    }

    cloneContents() { return contents.cloneContents(this); }

    insertNode(node) {
      checked(engine.rangeInsert(door, this[NUMBER], realm.idOf(node)));
      machine.changed();
    }

    surroundContents(parent) {
      realm.idOf(parent);
      const { start, end } = points(this);
      const common = this.commonAncestorContainer;
      const isPart = (node) => node !== common && [...partial(common, node)].some((each) => each.nodeType !== 3);
      if (isPart(start) || isPart(end)) throw new DOMException("a part of an element is in the range", "InvalidStateError");
      if ([9, 11].includes(parent.nodeType)) throw new DOMException("a document or a fragment surrounds nothing", "InvalidNodeTypeError");
      const contents = this.extractContents();
      while (parent.firstChild !== null) parent.removeChild(parent.firstChild);
      this.insertNode(parent);
      parent.appendChild(contents);
      this.selectNode(parent);
    }

    cloneRange() {
      const { start, startOffset, end, endOffset } = points(this);
      const made = new Range();
      made.setStart(start, startOffset);
      made.setEnd(end, endOffset);
      return made;
    }

    /** A fragment of a text of HTML, as if it stood at the start of the range. */
    createContextualFragment(markup) {
      const { start } = points(this);
      const element = start.nodeType === 1 ? start : start.parentElement;
      const isPage = element === null || (element.localName === "html" && element.namespaceURI === realm.HTML_NAMESPACE);
      return fragmentOf(realm, isPage ? realm.htmlType("body") : realm.elementType(element), `${markup}`);
    }

    detach() {}
    toString() { return checked(engine.rangeText(door, this[NUMBER])); }
  }
  Object.entries({ START_TO_START, START_TO_END, END_TO_END, END_TO_START }).forEach(([name, value]) => {
    for (const holder of [Range, Range.prototype]) Object.defineProperty(holder, name, { value, enumerable: true });
  });
  realm.Range = Range;
  realm.lengthOf = lengthOf;
  const contents = require("./rangeContents")(realm);
};
