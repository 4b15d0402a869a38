"use strict";
// Node of the DOM Standard: a place in a tree, by the number that the engine has given it.
const { engine, FOREIGN, checked, answered, listed } = require("./engine");

const CONSTANTS = {
  ELEMENT_NODE: 1, ATTRIBUTE_NODE: 2, TEXT_NODE: 3, CDATA_SECTION_NODE: 4, ENTITY_REFERENCE_NODE: 5, ENTITY_NODE: 6, PROCESSING_INSTRUCTION_NODE: 7,
  COMMENT_NODE: 8, DOCUMENT_NODE: 9, DOCUMENT_TYPE_NODE: 10, DOCUMENT_FRAGMENT_NODE: 11, NOTATION_NODE: 12, DOCUMENT_POSITION_DISCONNECTED: 0x01,
  DOCUMENT_POSITION_PRECEDING: 0x02, DOCUMENT_POSITION_FOLLOWING: 0x04, DOCUMENT_POSITION_CONTAINS: 0x08, DOCUMENT_POSITION_CONTAINED_BY: 0x10,
  DOCUMENT_POSITION_IMPLEMENTATION_SPECIFIC: 0x20,
};

/** A node and its ancestors, from the root on. */
function chain(node) {
  const nodes = [];
  for (let at = node; at !== null; at = at.parentNode) nodes.push(at);
  return nodes.reverse();
}

/** Whether a node that shares an ancestor with another stands before it: neither contains the other. */
function isBefore(chains, common) {
  for (let at = chains[0][common].nextSibling; at !== null; at = at.nextSibling) if (at === chains[1][common]) return true;
  return false;
}

// The places of a node's links in the table, after the count of changes at which they were asked for.
const [PARENT, FIRST, LAST, PREVIOUS, NEXT, WIDTH] = [1, 2, 3, 4, 5, 6];

/** What gives a link of a node. All five are asked for at once, and kept while no tree changes. */
function linksOf(machine, door) {
  let table = new Int32Array(WIDTH << 10);

  function ask(id, which) {
    checked(engine.links(door, id));
    const place = id * WIDTH;
    if (place >= table.length) {
      const longer = new Int32Array(2 * (place + WIDTH));
      longer.set(table);
      table = longer;
    }
    const answers = answered();
    table[place] = machine.structure;
    for (let each = PARENT; each <= NEXT; each++) table[place + each] = answers[each - 1];
    return table[place + which];
  }

  return (id, which) => (table[id * WIDTH] === machine.structure ? table[id * WIDTH + which] : ask(id, which));
}

module.exports = (realm) => {
  const { ID, KEY, door, nodes, machine, at } = realm;
  const link = linksOf(machine, door);
  const CHILDREN = Symbol("childNodes");

  realm.Node = class Node extends realm.EventTarget {
    constructor(key, id) {
      if (key !== KEY) throw new TypeError("Illegal constructor");
      super();
      this[ID] = id;
      nodes[id] = this;
    }

    get parentNode() { return at(link(this[ID], PARENT)); }
    get firstChild() { return at(link(this[ID], FIRST)); }
    get lastChild() { return at(link(this[ID], LAST)); }
    get previousSibling() { return at(link(this[ID], PREVIOUS)); }
    get nextSibling() { return at(link(this[ID], NEXT)); }
    get nodeValue() { return null; }
    set nodeValue(value) {}
    get baseURI() { return "about:blank"; }
    get isConnected() { return checked(engine.isConnected(door, this[ID])) === 1; }

    get parentElement() {
      const parent = this.parentNode;
      return parent !== null && parent.nodeType === 1 ? parent : null;
    }

    /** The node's document: of a component's node that document stands for the page's, which the component does not see. */
    get ownerDocument() {
      if (!realm.hasDocuments) return realm.document;
      const answer = checked(engine.ownerDocument(door, this[ID]));
      return answer === FOREIGN ? realm.document : at(answer);
    }

    get childNodes() {
      return (this[CHILDREN] ??= realm.liveNodes(() => realm.all(listed(() => engine.children(door, this[ID]))), "structure"));
    }

    get textContent() { return checked(engine.allText(door, this[ID])); }

    set textContent(value) {
      checked(engine.setText(door, this[ID], value === null || value === undefined ? "" : `${value}`));
      machine.changed();
    }

    hasChildNodes() {
      return this.firstChild !== null;
    }

    appendChild(node) {
      checked(engine.append(door, this[ID], realm.idOf(node)));
      machine.changed();
      return node;
    }

    /** Put a node before a child, or last where the child is null. */
    insertBefore(node, child) {
      if (arguments.length < 2) throw new TypeError("insertBefore takes a node and a child or null");
      const id = realm.idOf(node);
      if (child === null || child === undefined) checked(engine.append(door, this[ID], id));
      else checked(engine.insert(door, this[ID], id, realm.idOf(child)));
      machine.changed();
      return node;
    }

    replaceChild(node, child) {
      if (arguments.length < 2) throw new TypeError("replaceChild takes a node and a child");
      const id = realm.idOf(node);
      checked(engine.replace(door, this[ID], id, realm.idOf(child)));
      machine.changed();
      return child;
    }

    removeChild(child) {
      const id = realm.idOf(child);
      if (child.parentNode !== this) throw new DOMException("the node is not a child of this node", "NotFoundError");
      checked(engine.remove(door, id));
      machine.changed();
      return child;
    }

    normalize() {
      checked(engine.normalize(door, this[ID]));
      machine.changed();
    }

    cloneNode(deep = false) {
      return realm.clone(this, this.ownerDocument ?? this, Boolean(deep));
    }

    contains(other) {
      if (other === null || other === undefined) return false;
      if (other instanceof realm.ForeignNode) return false;
      return checked(engine.contains(door, this[ID], realm.idOf(other))) === 1;
    }

    /** The root of the node's tree. A closed tree ends at its shadow root, also with `composed`. */
    getRootNode() {
      let root = this[ID];
      for (let above = link(root, PARENT); above >= 0; above = link(root, PARENT)) root = above;
      return at(root);
    }

    isSameNode(other) {
      return other === this;
    }

    isEqualNode(other) {
      return other !== null && other !== undefined && realm.isEqual(this, at(realm.idOf(other)));
    }

    compareDocumentPosition(other) {
      realm.idOf(other);
      if (other === this) return 0;
      const chains = [chain(other), chain(this)];
      if (chains[0][0] !== chains[1][0]) return other[ID] < this[ID] ? 0x23 : 0x25;
      let common = 0;
      while (common < chains[0].length && chains[0][common] === chains[1][common]) common++;
      if (common === chains[0].length) return 0x0a;
      if (common === chains[1].length) return 0x14;
      return isBefore(chains, common) ? 0x02 : 0x04;
    }
  };

  for (const [name, value] of Object.entries(CONSTANTS))
    for (const holder of [realm.Node, realm.Node.prototype]) Object.defineProperty(holder, name, { value, enumerable: true });
  Object.assign(realm, require("./cloning")(realm));
  realm.firstOf = (id) => link(id, FIRST);
  realm.lastOf = (id) => link(id, LAST);
};
