// What each command does by calls of the DOM. No line is read and no name is given here but by the run.
"use strict";
(function (exports, { isName, isSelector }) {
  const MOVES = {
    parent: "parentNode", first: "firstChild", last: "lastChild", next: "nextNode", previous: "previousNode",
    "next-sibling": "nextSibling", "previous-sibling": "previousSibling",
  };
  const MAX_COMPONENTS = 1000;
  const MAX_DEPTH = 8;
  const MAX_OF_OWNER = 1000000;
  const isShadowRoot = (node) => node.nodeType === 11 && "host" in node;

  // A refusal of the protocol's own.
  class Refused extends Error {}
  const refuseWhere = (holds, name) => {
    if (holds) throw new Refused(name);
  };

  // Own rule: how much an owner may have in a table.
  const refuseFull = (owner, table) => refuseWhere(owner[table].length >= MAX_OF_OWNER, "limit");

  // Own rule: how many components an owner may attach, and how many numbers a component's word has. What the DOM refuses before, a
  // copy of the element tells.
  function refuseLast(run, maker, element) {
    const depth = maker === run.page ? 0 : maker.word.split(".").length;
    if (maker.attached < MAX_COMPONENTS && depth < MAX_DEPTH) return;
    refuseWhere([...run.owners.values()].some(({ nodes: [root] }) => root.host === element), "not-supported");
    element.cloneNode().attachShadow({ mode: "closed" });
    throw new Refused("limit");
  }

  // A string of the DOM as the protocol writes it.
  const quoted = (text) =>
    `"${text.replace(/[^\x20-\x7e]|["\\]/g, (unit) =>
      unit === '"' || unit === "\\" ? "\\" + unit : "\\u" + unit.charCodeAt(0).toString(16).padStart(4, "0"))}"`;
  const quotedOrNull = (text) => (text === null ? "null" : quoted(text));

  // ---- commands: each takes the run, the owner, what its words name, and its options, and gives its answer

  const documentOf = (run, owner) => (owner === run.page ? run.first : owner.nodes[0].ownerDocument);

  // Validity of insertion is the DOM's. Own rule: a shadow root is no node to insert; a document, which is none either, stands for it.
  function insertable(run, parent, node) {
    refuseWhere(isShadowRoot(node) && node.contains(parent), "hierarchy");
    return isShadowRoot(node) ? run.makeDocument() : node;
  }

  function attach(run, maker, [element]) {
    const isOwn = element.localName.includes("-") && !/^[a-z][a-z0-9-]*$/.test(element.localName);
    refuseWhere(isOwn, "not-supported");
    refuseLast(run, maker, element);
    const root = element.attachShadow({ mode: "closed" });
    maker.attached += 1;
    const owner = run.addOwner((maker === run.page ? "c" : maker.word + ".") + maker.attached);
    run.name(owner, root);
    return owner.word;
  }

  function setText(run, owner, [node, text]) {
    node.textContent = text;
    if (node.nodeType === 1 || node.nodeType === 11) run.nameAll(owner, node);
  }

  function treeOf(run, owner, node) {
    const kind = { 1: "element", 3: "text", 8: "comment", 9: "document", 11: isShadowRoot(node) ? "shadow" : "fragment" };
    const parts = [run.show(owner, node), kind[node.nodeType]];
    if (node.nodeType === 1) parts.push(node.localName, ...Array.from(node.attributes, ({ name, value }) => `${name}=${quoted(value)}`));
    if (node.nodeType === 3 || node.nodeType === 8) parts.push(quoted(node.data));
    return `(${[...parts, ...Array.from(node.childNodes, (child) => treeOf(run, owner, child))].join(" ")})`;
  }

  function makeRange(run, owner) {
    const range = run.first.createRange();
    range.setStart(owner.nodes[0], 0);
    range.collapse(true);
    return run.add(owner, "ranges", range);
  }

  function extract(run, owner, [range]) {
    const fragment = range.extractContents();
    run.nameAll(owner, fragment);
    return run.show(owner, fragment);
  }

  function insertNode(run, owner, [range, node]) {
    const start = range.startContainer;
    refuseWhere(isShadowRoot(node), "hierarchy");
    range.insertNode(node);
    for (let next = start.nextSibling; start.nodeType === 3 && next; next = next.nextSibling) run.nameAll(owner, next);
  }

  const filterOf = ({ named }) => named ? {
    acceptNode: (node) => node.nodeType !== 1 || node.localName !== named.name ? 1 : named.verdict === "reject" ? 2 : 3,
  } : null;

  // Own rule: a move from a node outside the walker's root is null.
  function walk(run, owner, [walker, move]) {
    return run.show(owner, walker.root.contains(walker.currentNode) ? walker[MOVES[move]]() : null);
  }

  function select(run, owner, [node, text], answer) {
    refuseWhere(!isSelector(text), "selector");
    return answer(node, text);
  }

  function listen(run, owner, [node, type, label, action], { capture = false, once = false, passive = false }) {
    const listener = run.listenerOf(owner, node, type, label, capture);
    if (!listener.action) Object.assign(listener, { action, acts: action, once, capture });
    node.addEventListener(type, listener, { capture, once: once && !run.fixes.length, passive });
  }

  function unlisten(run, owner, [node, type, label], { capture = false }) {
    const listener = run.listenerOf(owner, node, type, label, capture);
    listener.action = null;
    node.removeEventListener(type, listener, { capture });
  }

  // Own rule: a component's related node has the root of the target.
  function dispatch(run, owner, [node, type], { bubbles = false, cancelable = false, composed = false, related: relatedTarget }) {
    refuseWhere(owner !== run.page && relatedTarget && relatedTarget.getRootNode() !== node.getRootNode(), "type");
    const { Event, FocusEvent } = run.window;
    const options = { bubbles, cancelable, composed };
    return node.dispatchEvent(relatedTarget ? new FocusEvent(type, { ...options, relatedTarget }) : new Event(type, options));
  }

  // The two words whose absence is false are said; jsdom 20 takes what is not said for no answer.
  function observe(run, owner, [{ real, twin }, node], { related, childList = false, subtree = false, ...options }) {
    for (const observer of [real, twin]) observer.observe(node, { childList, subtree, ...options });
  }

  function take(run, owner, [observer]) {
    const records = run.recordsOf(observer, observer.real.takeRecords());
    for (const record of records) run.put(observer.line(record));
    return records.length;
  }

  function disconnect(run, owner, [observer]) {
    [observer.kept, observer.raw] = [[], []];
    for (const one of [observer.real, observer.twin]) one.disconnect();
  }

  function setAttribute(run, owner, [element, name, value]) {
    refuseWhere(!isName(name), "invalid-character");
    element.setAttribute(name, value);
  }

  function newElement(run, owner, [name]) {
    refuseWhere(!isName(name), "invalid-character");
    return run.name(owner, documentOf(run, owner).createElement(name));
  }

  const nothing = (call) => (run, owner, values) => void call(...values);
  const telling = (call) => (run, owner, values) => String(call(...values));
  const showing = (call) => (run, owner, values) => run.show(owner, call(...values));
  const making = (call) => (run, owner, values) => run.name(owner, call(documentOf(run, owner), ...values));
  const COMMANDS = {
    "new element": newElement,
    "new text": making((document, data) => document.createTextNode(data)),
    "new comment": making((document, data) => document.createComment(data)),
    "new fragment": making((document) => document.createDocumentFragment()),
    document: (run, owner) => run.name(owner, run.makeDocument()),
    attach,
    append: (run, owner, [parent, node]) => void parent.appendChild(insertable(run, parent, node)),
    insert: (run, owner, [parent, node, child]) => void parent.insertBefore(insertable(run, parent, node), child),
    replace: (run, owner, [parent, node, child]) => void parent.replaceChild(insertable(run, parent, node), child),
    remove: nothing((node) => node.remove()),
    adopt: nothing((document, node) => document.adoptNode(node)),
    normalize: nothing((node) => node.normalize()),
    text: setText,
    set: setAttribute,
    unset: nothing((element, name) => element.removeAttribute(name)),
    data: nothing((node, data) => (node.data = data)),
    "replace-data": nothing((node, offset, count, data) => node.replaceData(offset, count, data)),
    split: (run, owner, [text, offset]) => run.name(owner, text.splitText(offset)),
    tree: (run, owner, [node]) => treeOf(run, owner, node),
    attr: (run, owner, [element, name]) => quotedOrNull(element.getAttribute(name)),
    parent: showing((node) => node.parentNode),
    docof: showing((node) => node.ownerDocument),
    children: (run, owner, [node]) => run.showList(owner, node.childNodes),
    contains: telling((node, other) => node.contains(other)),
    connected: telling((node) => node.isConnected),
    "shadow-root": showing((element) => element.shadowRoot),
    "slot-of": showing((node) => node.assignedSlot),
    assigned: (run, owner, [slot]) => run.showList(owner, slot.assignedNodes()),
    "range-new": makeRange,
    "range-start": nothing((range, node, offset) => range.setStart(node, offset)),
    "range-end": nothing((range, node, offset) => range.setEnd(node, offset)),
    "range-collapse": nothing((range, end) => range.collapse(end === "start")),
    "range-drop": (run, owner, [range]) => void (owner.ranges[owner.ranges.indexOf(range)] = null),
    "range-get": (run, owner, [range]) =>
      `${run.show(owner, range.startContainer)} ${range.startOffset} ${run.show(owner, range.endContainer)} ${range.endOffset}`,
    "range-text": (run, owner, [range]) => quoted(range.toString()),
    delete: nothing((range) => range.deleteContents()),
    extract,
    "insert-node": insertNode,
    "iter-new": (run, owner, [root, shown], options) =>
      run.add(owner, "iterators", run.first.createNodeIterator(root, shown, filterOf(options))),
    "walk-new": (run, owner, [root, shown], options) =>
      run.add(owner, "walkers", run.first.createTreeWalker(root, shown, filterOf(options))),
    "iter-next": showing((iterator) => iterator.nextNode()),
    "iter-prev": showing((iterator) => iterator.previousNode()),
    "iter-at": (run, owner, [{ referenceNode, pointerBeforeReferenceNode }]) =>
      `${run.show(owner, referenceNode)} ${pointerBeforeReferenceNode ? "before" : "after"}`,
    walk,
    "walk-at": showing((walker) => walker.currentNode),
    "walk-set": nothing((walker, node) => (walker.currentNode = node)),
    query: (run, owner, values) =>
      select(run, owner, values, (node, text) => run.showList(owner, node.querySelectorAll(text))),
    matches: (run, owner, values) => select(run, owner, values, (element, text) => String(element.matches(text))),
    listen,
    unlisten,
    dispatch: (...words) => String(dispatch(...words)),
    observer: (run, owner) => run.makeObserver(owner),
    observe,
    disconnect,
    take,
    micro: (run, owner, [label]) => run.queue.addMicrotask(owner, label),
  };

  exports.commands = { COMMANDS, Refused, refuseWhere, refuseFull, quotedOrNull };
})(typeof module === "object" ? module.exports : globalThis, typeof require === "function" ? require("./lines.js").protocol : globalThis.protocol);
