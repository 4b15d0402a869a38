// Which slots a command signals by the DOM Standard's text, in the order of its steps. A copy of the trees is changed step by step: a
// placing, a removal and a change of an attribute each compare what is assigned to the slots before it and behind it (4.2.2 to 4.2.3).
"use strict";
(function (exports) {
  const isSlot = (node) => node.localName === "slot";
  const isSame = (some, others) => some.length === others.length && some.every((one, i) => one === others[i]);

  const indexOf = (node) => {
    let index = 0;
    for (let before = node.previousSibling; before; before = before.previousSibling) index += 1;
    return index;
  };

  // The nodes that a range holds whole, without those below them, in tree order: from the start upwards what follows, to the end what comes
  // before.
  function held(range) {
    const { startContainer: start, startOffset, endContainer: end, endOffset, commonAncestorContainer: common } = range;
    const childrenOf = (node) => (node.nodeType === 3 || node.nodeType === 8 ? [] : [...node.childNodes]);
    const towards = (node) => childrenOf(common).findIndex((child) => child.contains(node));
    const first = start === common ? startOffset : towards(start) + 1;
    const found = childrenOf(common).slice(first, end === common ? endOffset : towards(end));
    if (start !== common) found.push(...childrenOf(start).slice(startOffset));
    if (end !== common) found.push(...childrenOf(end).slice(0, endOffset));
    for (let node = start; node !== common && node.parentNode !== common; node = node.parentNode)
      found.push(...childrenOf(node.parentNode).slice(indexOf(node) + 1));
    for (let node = end; node !== common && node.parentNode !== common; node = node.parentNode)
      found.push(...childrenOf(node.parentNode).slice(0, indexOf(node)));
    return found.sort((a, b) => (a.compareDocumentPosition(b) & a.DOCUMENT_POSITION_FOLLOWING ? -1 : 1));
  }

  // The trees of all owners as they stand, and the slots that the steps on them signal, each with its reasons.
  class Trees {
    constructor(run) {
      [this.parents, this.children, this.roots, this.hosts] = [new Map(), new Map(), new Map(), new Map()];
      [this.attributes, this.reasons, this.crowds, this.taken] = [new Map(), new Map(), new Set(), []];
      [this.count, this.signalSteps, this.takeSteps, this.placeSteps] = [0, new Map(), new Map(), new Map()];
      for (const { nodes } of run.owners.values()) for (const node of nodes) this.copy(node);
    }

    copy(node) {
      const children = [...node.childNodes];
      this.children.set(node, children);
      for (const child of children) this.parents.set(child, node);
      if (node.host) this.roots.set(node.host, node);
    }

    childrenOf(node) {
      return this.children.get(node) || [];
    }

    // A node and what is above it in its tree.
    chainOf(node) {
      const chain = [];
      for (let above = node; above; above = this.parents.get(above)) chain.push(above);
      return chain;
    }

    // The same, with what is above the host of each shadow root.
    shadowChainOf(node) {
      const chain = [];
      for (let above = node; above; above = this.parents.get(above) || (above.nodeType === 11 && above.host)) chain.push(above);
      return chain;
    }

    rootOf(node) {
      return this.chainOf(node).pop();
    }

    // The slots of a tree, in tree order.
    slotsBelow(top) {
      return [...(isSlot(top) ? [top] : []), ...this.childrenOf(top).flatMap((child) => this.slotsBelow(child))];
    }

    // The value of an attribute; absent is empty.
    valueOf(node, name) {
      const changed = this.attributes.get(node);
      return changed && name in changed ? changed[name] : (node.getAttribute && node.getAttribute(name)) || "";
    }

    // What is assigned to each slot of the shadow trees.
    assigned() {
      const lists = new Map();
      for (const [host, root] of this.roots) {
        const named = new Map();
        for (const slot of this.slotsBelow(root)) {
          lists.set(slot, []);
          const name = this.valueOf(slot, "name");
          if (!named.has(name)) named.set(name, slot);
        }
        for (const child of this.childrenOf(host)) {
          const slot = child.nodeType === 8 ? null : named.get(this.valueOf(child, "slot"));
          if (slot) lists.get(slot).push(child);
        }
      }
      return lists;
    }

    // Carries out a step that concerns a node and its place, and signals slots: those of the node, the place, the place's tree, the node's.
    step(node, place, change) {
      this.count += 1;
      const before = this.assigned();
      change();
      const behind = this.assigned();
      const isChanged = (slot) => !isSame(before.get(slot) || [], behind.get(slot) || []);
      const ofNode = [before, behind].flatMap((lists) => [...lists.keys()].filter((slot) => lists.get(slot).includes(node)));
      for (const slot of ofNode.filter(isChanged)) this.signal(slot, "list");
      if (place && isSlot(place) && (behind.get(place) || [0]).length === 0) this.signal(place, node.nodeType === 8 ? "comment" : "child");
      for (const top of [this.rootOf(place || node), node]) for (const slot of this.slotsBelow(top).filter(isChanged)) this.signal(slot, "tree");
    }

    signal(slot, reason) {
      if (!this.signalSteps.has(slot)) this.signalSteps.set(slot, this.count);
      this.reasons.set(slot, [...(this.reasons.get(slot) || []), reason]);
    }

    // Keeps the names that several slots have which come or go together.
    noteCrowd(node) {
      const names = this.slotsBelow(node).map((slot) => this.valueOf(slot, "name"));
      for (const name of names.filter((one, i) => names.indexOf(one) !== i)) this.crowds.add(name);
    }

    take(node) {
      const place = this.parents.get(node);
      if (!place) return;
      this.noteCrowd(node);
      this.taken.push({ node, above: this.chainOf(place), around: this.shadowChainOf(place) });
      this.step(node, place, () => {
        this.parents.delete(node);
        this.children.set(place, this.childrenOf(place).filter((child) => child !== node));
      });
      this.takeSteps.set(node, this.count);
    }

    // A node is never placed in itself: the command is refused then.
    place(parent, node, reference) {
      if (this.chainOf(parent).includes(node)) throw new RangeError("a node in itself");
      this.take(node);
      this.noteCrowd(node);
      this.step(node, parent, () => {
        const children = [...this.childrenOf(parent)];
        children.splice(reference ? children.indexOf(reference) : children.length, 0, node);
        this.children.set(parent, children);
        this.parents.set(node, parent);
      });
      this.placeSteps.set(node, this.count);
    }

    nextOf(node) {
      const siblings = this.childrenOf(this.parents.get(node));
      return siblings[siblings.indexOf(node) + 1] || null;
    }

    insert(parent, node, child) {
      const reference = child === node ? this.nextOf(node) : child || null;
      for (const one of node.nodeType === 11 ? [...this.childrenOf(node)] : [node]) this.place(parent, one, reference);
    }

    replace(parent, node, child) {
      const following = this.nextOf(child);
      const reference = following === node ? this.nextOf(node) : following;
      this.take(child);
      this.insert(parent, node, reference);
    }

    // What a DOM does that lets the new node leave first.
    replaceLate(parent, node, child) {
      if (node === child) return this.replace(parent, node, child);
      if (node.nodeType !== 11) this.take(node);
      return this.replace(parent, node, child);
    }

    setText(node, data) {
      if (![1, 11].includes(node.nodeType)) return;
      for (const child of this.childrenOf(node)) this.take(child);
      if (data) this.place(node, { nodeType: 3 }, null);
    }

    normalize(node) {
      const texts = (top) => this.childrenOf(top).flatMap((child) => (child.nodeType === 3 ? [child] : texts(child)));
      for (const text of texts(node)) {
        if (!this.parents.has(text)) continue;
        if (text.length === 0) { this.take(text); continue; }
        for (let next = this.nextOf(text); next && next.nodeType === 3; next = this.nextOf(text)) this.take(next);
      }
    }

    split(text) {
      if (!this.parents.has(text)) return null;
      const tail = { nodeType: 3 };
      this.place(this.parents.get(text), tail, this.nextOf(text));
      return tail;
    }

    insertNode({ startContainer: start, startOffset }, node) {
      const reference = start.nodeType === 3 ? this.split(start) : this.childrenOf(start)[startOffset] || null;
      const parent = reference ? this.parents.get(reference) : start;
      const behind = reference === node ? this.nextOf(node) : reference;
      if (node.nodeType !== 11) this.take(node);
      this.insert(parent, node, behind);
    }

    setAttribute(element, name, value) {
      const isOf = (name === "name" && isSlot(element)) || name === "slot";
      if (!isOf || (this.valueOf(element, name) === (value || ""))) return;
      this.step(element, null, () => this.attributes.set(element, { ...this.attributes.get(element), [name]: value || "" }));
    }
  }

  const COMMANDS = {
    append: (trees, [parent, node]) => trees.insert(parent, node, null),
    insert: (trees, [parent, node, child]) => trees.insert(parent, node, child),
    replace: (trees, [parent, node, child]) => trees.replace(parent, node, child),
    remove: (trees, [node]) => trees.take(node),
    adopt: (trees, [, node]) => trees.take(node),
    text: (trees, [node, data]) => trees.setText(node, data),
    normalize: (trees, [node]) => trees.normalize(node),
    split: (trees, [text]) => void trees.split(text),
    delete: (trees, [range]) => held(range).forEach((node) => trees.take(node)),
    extract: (trees, [range]) => held(range).forEach((node) => trees.take(node)),
    "insert-node": (trees, [range, node]) => trees.insertNode(range, node),
    set: (trees, [element, name, value]) => trees.setAttribute(element, name, value),
    unset: (trees, [element, name]) => trees.setAttribute(element, name, null),
  };

  // The trees behind a command, with what it did by the Standard's text; null: it changes no tree, or it is refused.
  function treesBehind(run, carryOut, values) {
    const trees = new Trees(run);
    try {
      carryOut(trees, values);
    } catch {
      return null;
    }
    return trees;
  }

  // The signals of a command that is not refused, by the Standard's text: `slots` are they, each with its reasons, in the order of the steps.
  // `late` is the same where a replaced child leaves last (null: no other), `crowds` are the names of slots that come or go together, and
  // `unmoved` is the slot whose name, or the name of whose node, is set to the empty string where it had none, or is taken away where it is that.
  // `taken` are the nodes that leave their places, each with what was above it and around it, and `stepOf` and
  // `isBefore` tell behind which step a record stands, and whether it comes before the signal of a slot.
  function signalsOf(run, name, values) {
    const trees = COMMANDS[name] ? treesBehind(run, COMMANDS[name], values) : null;
    if (!trees) return null;
    const { reasons, crowds, taken } = trees;
    const stepOf = (record) => stepOfRecord(trees, record);
    const isBefore = (record, slot) => stepOf(record) < (trees.signalSteps.get(slot) ?? Infinity);
    const lateOnes = name === "replace" ? treesBehind(run, (late, words) => late.replaceLate(...words), values) : null;
    const unmoved = name === "set" || name === "unset" ? unmovedBy(run, name, values) : null;
    if (unmoved && unmoved.name === "empty-name") crowds.add("");
    return { slots: reasons, late: lateOnes && lateOnes.reasons, crowds, taken, stepOf, isBefore, unmoved };
  }

  // The step behind which a record stands: records of attributes, of data and of a fragment that gives its children stand before all.
  function stepOfRecord({ takeSteps, placeSteps }, { type, target, addedNodes, removedNodes }) {
    if (type !== "childList" || target.nodeType === 11 && !target.host && removedNodes.length && !takeSteps.has(removedNodes[0])) return 0;
    const [added, removed] = [addedNodes, removedNodes].map((nodes) => nodes[nodes.length - 1]);
    return (added ? placeSteps.get(added) : takeSteps.get(removed)) ?? Infinity;
  }

  function unmovedBy(run, command, [element, name, value]) {
    if (command === "set" ? value !== "" || element.hasAttribute(name) : element.getAttribute(name) !== "") return null;
    if (name === "name" && isSlot(element)) return { slot: element, name: "empty-name" };
    const lists = name === "slot" ? [...new Trees(run).assigned()] : [];
    const found = lists.find(([, nodes]) => nodes.includes(element));
    return found ? { slot: found[0], name: "empty-slot" } : null;
  }

  // ---- how a DOM differs from that

  // The slots whose place in the order is the Standard's everywhere: no slot of their tree came, went or got another name.
  const isFixedIn = (reasons) => (slot) => !(reasons.get(slot) || []).includes("tree");

  // The names of the differences after which the slots that a DOM told are those of the signals, as few as explain it; null where those
  // that it may have do not.
  function namesOf(told, { slots, late, crowds, unmoved }, fixes) {
    const names = late && namesFrom(late, told, crowds, unmoved);
    const plain = namesFrom(slots, told, crowds, unmoved);
    const isPossible = (found) => found && found.every((name) => fixes.includes(name));
    const found = [names && [...names, "slot-replaced"], plain].filter(isPossible);
    return found.sort((one, other) => one.length - other.length)[0] || null;
  }

  function namesFrom(reasons, told, crowds, unmoved) {
    const [wanted, names] = [[...reasons.keys()], new Set()];
    for (const slot of wanted.filter((one) => !told.includes(one))) {
      if (!reasons.get(slot).every((reason) => reason === "comment")) return null;
      names.add("comment-untold");
    }
    for (const slot of told.filter((one) => !wanted.includes(one))) {
      if (unmoved && unmoved.slot === slot) names.add(unmoved.name);
      else if (crowds.has(slot.getAttribute("name") || "")) names.add("slots-together");
      else return null;
    }
    const [shared, inOrder] = [told.filter((one) => wanted.includes(one)), wanted.filter((one) => told.includes(one))];
    if (!isSame(shared, inOrder)) {
      if (!isSame(shared.filter(isFixedIn(reasons)), inOrder.filter(isFixedIn(reasons)))) return null;
      names.add("slot-order");
    }
    return [...names];
  }

  exports.slots = { signalsOf, namesOf, held, indexOf };
})(typeof module === "object" ? module.exports : globalThis);
