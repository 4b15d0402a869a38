"use strict";
// What is in a range: cloned by the Standard's algorithm, and named after the engine has taken it out.
const isData = (node) => node.nodeType === 3 || node.nodeType === 8;

module.exports = (realm) => {
  const { ID } = realm;

  /** A clone of the data of a Text or a Comment between two offsets. */
  function part(node, start, end) {
    const made = node.cloneNode();
    made.data = node.data.slice(start, end);
    return made;
  }

  /** A clone of a node that holds one end of a range, with what is between two points inside it. */
  function around(node, start, startOffset, end, endOffset) {
    const made = node.cloneNode();
    const range = new realm.Range();
    range.setStart(start, startOffset);
    range.setEnd(end, endOffset);
    made.appendChild(cloneContents(range));
    return made;
  }

  /** The child of a node that contains another one. */
  function childOf(common, node) {
    let child = node;
    while (child.parentNode !== common) child = child.parentNode;
    return child;
  }

  function cloneContents(range) {
    const { startContainer: start, startOffset, endContainer: end, endOffset } = range;
    const fragment = start.ownerDocument === null ? start.createDocumentFragment() : start.ownerDocument.createDocumentFragment();
    if (range.collapsed) return fragment;
    if (start === end && isData(start)) {
      fragment.appendChild(part(start, startOffset, endOffset));
      return fragment;
    }
    const common = range.commonAncestorContainer;
    const first = start.contains(end) ? null : childOf(common, start);
    const last = end.contains(start) ? null : childOf(common, end);
    const after = first === null ? common.childNodes[startOffset] ?? null : first.nextSibling;
    const stop = last === null ? common.childNodes[endOffset] ?? null : last;
    if (first !== null)
      fragment.appendChild(isData(first) ? part(first, startOffset) : around(first, start, startOffset, first, realm.lengthOf(first)));
    for (let child = after; child !== stop; child = child.nextSibling) fragment.appendChild(child.cloneNode(true));
    if (last !== null) fragment.appendChild(isData(last) ? part(last, 0, endOffset) : around(last, last, 0, end, endOffset));
    return fragment;
  }

  return {
    cloneContents,

    /** Give the clones along a side of a fragment the types of what they are clones of: the engine knows local names alone. */
    named(fragment, originals, side) {
      let id = fragment[ID];
      for (const original of originals) {
        id = side === "first" ? realm.firstOf(id) : realm.lastOf(id);
        if (id < 0 || original.nodeType !== 1 || realm.nodes[id] !== undefined) return;
        realm.elementOf(id, realm.elementType(original));
      }
    },
  };
};
