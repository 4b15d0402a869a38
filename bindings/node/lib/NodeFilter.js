"use strict";
// NodeFilter of the DOM Standard: constants, and how a filter is asked.
const CONSTANTS = {
  FILTER_ACCEPT: 1, FILTER_REJECT: 2, FILTER_SKIP: 3,
  SHOW_ALL: 0xffffffff, SHOW_ELEMENT: 0x1, SHOW_ATTRIBUTE: 0x2, SHOW_TEXT: 0x4, SHOW_CDATA_SECTION: 0x8, SHOW_ENTITY_REFERENCE: 0x10,
  SHOW_ENTITY: 0x20, SHOW_PROCESSING_INSTRUCTION: 0x40, SHOW_COMMENT: 0x80, SHOW_DOCUMENT: 0x100, SHOW_DOCUMENT_TYPE: 0x200,
  SHOW_DOCUMENT_FRAGMENT: 0x400, SHOW_NOTATION: 0x800,
};

module.exports = (realm) => {
  realm.NodeFilter = class NodeFilter {
    constructor() { throw new TypeError("Illegal constructor"); }
  };
  for (const [name, value] of Object.entries(CONSTANTS)) Object.defineProperty(realm.NodeFilter, name, { value, enumerable: true });

  /** A filter that is given to an iterator or a walker: null, a function, or an object with acceptNode. */
  realm.validFilter = (filter) => {
    if (filter === undefined || filter === null) return null;
    if (typeof filter !== "function" && typeof filter !== "object") throw new TypeError("a filter is a function or an object");
    return filter;
  };

  /** Filter a node, as the Standard says, for an iterator or a walker. Its filter is not asked while it is asked. */
  realm.filtered = (cursor, state, node) => {
    if (state.isActive) throw new DOMException("the filter is being asked", "InvalidStateError");
    if (((1 << (node.nodeType - 1)) & state.whatToShow) === 0) return CONSTANTS.FILTER_SKIP;
    if (state.filter === null) return CONSTANTS.FILTER_ACCEPT;
    state.isActive = true;
    try {
      return Number(typeof state.filter === "function" ? state.filter(node) : state.filter.acceptNode(node));
    } finally {
      state.isActive = false;
    }
  };
};
