// The differences between a DOM and the protocol that can be made good by smaller steps: with a fix the adapter carries a command out
// as the DOM Standard has it, and a script that then agrees differs by just this. What a fix does is met only where it changes something.
"use strict";
(function (exports, { planIterators, planEmptied, planRoots, planUntold, planTransients, observesWhatLeft, Unrepresentable }, { held, indexOf }) {
  // The boundary points of an owner's ranges, moved as the Standard's steps move them.
  class Points {
    constructor(owner) {
      this.ranges = owner.ranges.filter(Boolean);
      this.points = this.ranges.map((range) => [
        { node: range.startContainer, offset: range.startOffset }, { node: range.endContainer, offset: range.endOffset },
      ]);
      this.all = this.points.flat();
    }

    // Room is made in front of the child at an index.
    makeRoom(parent, index, count) {
      for (const point of this.all) if (point.node === parent && point.offset > index) point.offset += count;
    }

    // A node leaves its parent, where it has this index.
    remove(parent, node, index) {
      for (const point of this.all) {
        if (node.contains(point.node)) Object.assign(point, { node: parent, offset: index });
        else if (point.node === parent && point.offset > index) point.offset -= 1;
      }
    }

    // Gives the ranges these points; with `late` those alone that stand where these other points are. True: one of them moves by that.
    put(late = null) {
      let moved = false;
      this.ranges.forEach((range, i) => {
        const isAt = ([start, end]) => range.startContainer === start.node && range.startOffset === start.offset
          && range.endContainer === end.node && range.endOffset === end.offset;
        if (isAt(this.points[i]) || (late && !isAt(late.points[i]))) return;
        const [start, end] = this.points[i];
        moved = true;
        range.setStart(start.node, start.offset);
        range.setEnd(end.node, end.offset);
        if (!isAt(this.points[i])) throw new Unrepresentable("start-behind-end");
      });
      return moved;
    }
  }

  // Rewrites the records that each observer took of this command. True: some list is another one by that.
  function rewrite(taken, change) {
    let changed = false;
    for (const observer of taken) {
      const before = JSON.stringify(observer.fresh.map((record) => observer.line(record)));
      observer.fresh = change(observer.fresh);
      changed = changed || before !== JSON.stringify(observer.fresh.map((record) => observer.line(record)));
    }
    return changed;
  }

  const copyOf = ({ type, target, addedNodes, removedNodes, previousSibling, nextSibling, attributeName, oldValue }, changes) =>
    ({ type, target, addedNodes: [...addedNodes], removedNodes: [...removedNodes], previousSibling, nextSibling, attributeName, oldValue, ...changes });

  // Insertion of a node among its siblings: room is made, and the previous sibling is taken, before the node leaves its place.
  function planInsertion(owner, [parent, node, child]) {
    if (node.parentNode !== parent) return null;
    const reference = child === node ? node.nextSibling : child || null;
    const previousSibling = reference ? reference.previousSibling : parent.lastChild;
    const [points, late, at] = [new Points(owner), new Points(owner), indexOf(node)];
    const index = reference && indexOf(reference);
    if (reference) points.makeRoom(parent, index, 1);
    points.remove(parent, node, at);
    late.remove(parent, node, at);
    if (reference) late.makeRoom(parent, at < index ? index - 1 : index, 1);
    const lateSibling = previousSibling === node ? node.previousSibling : previousSibling;
    return (taken) => {
      const moved = points.put(late);
      const isIt = (record) => record.type === "childList" && record.target === parent && [...record.addedNodes].includes(node)
        && record.previousSibling === lateSibling;
      return rewrite(taken, (records) => records.map((record) => (isIt(record) ? copyOf(record, { previousSibling }) : record))) || moved;
    };
  }

  // Replacement: the child leaves before the node does, and one record has both.
  function planReplacement(owner, [parent, node, child]) {
    if (child.parentNode !== parent || (node.parentNode !== parent && !child.contains(node))) return null;
    const following = child.nextSibling;
    const reference = following === node ? node.nextSibling : following;
    const last = { type: "childList", target: parent, previousSibling: child.previousSibling, nextSibling: reference, removedNodes: [child] };
    last.addedNodes = node.nodeType === 11 ? [...node.childNodes] : [node];
    const beside = (sibling, further) => (sibling === child ? further : sibling);
    const first = node !== child && node.parentNode === parent && {
      type: "childList", target: parent, addedNodes: [], removedNodes: [node],
      previousSibling: beside(node.previousSibling, child.previousSibling), nextSibling: beside(node.nextSibling, child.nextSibling),
    };
    const [points, late] = [new Points(owner), new Points(owner)];
    if (first) {
      const [index, at] = [indexOf(child), indexOf(node)];
      late.remove(parent, node, at);
      late.remove(parent, child, at < index ? index - 1 : index);
      if (reference) late.makeRoom(parent, at < index ? index - 1 : index, 1);
      points.remove(parent, child, index);
      if (reference) points.makeRoom(parent, indexOf(reference) - 1, 1);
      points.remove(parent, node, at > index ? at - 1 : at);
    }
    return (taken) => {
      const moved = first ? points.put(late) : false;
      const isOurs = (record) => record.type === "childList" && record.target === parent;
      return rewrite(taken, (records) => {
        if (!records.some(isOurs)) return records;
        return [...records.filter((record) => !isOurs(record)), ...(first ? [first] : []), last];
      }) || moved;
    };
  }

  // Splitting of a Text: the new Text is placed before the old one's data are cut.
  function planSplit(text) {
    if (text.nodeType !== 3) return null;
    return (taken) => rewrite(taken, (records) => {
      const cut = records.find((record) => record.type === "characterData" && record.target === text);
      const rest = records.filter((record) => record !== cut);
      const at = rest.findIndex((record) => record.type === "childList" && record.previousSibling === text && record.removedNodes.length === 0);
      return cut && at >= 0 ? [...rest.slice(0, at + 1), cut, ...rest.slice(at + 1)] : records;
    });
  }

  // A Text without a parent is split: what pointed behind the place stays in it, at its end.
  function planSplitAlone(owner, [text, offset]) {
    if (text.parentNode) return null;
    const points = new Points(owner);
    for (const point of points.all) if (point.node === text && point.offset > offset) point.offset = offset;
    return () => points.put();
  }

  // Deletion and extraction: the data at the start are cut first, and those at the end last.
  function planCut({ startContainer: start, endContainer: end }) {
    if (start === end) return null;
    const isOf = (record, node) => record.type === "characterData" && record.target === node;
    const placeOf = (record) => isOf(record, start) ? 0 : isOf(record, end) ? 2 : 1;
    return (taken) => rewrite(taken, (records) => [...records].sort((a, b) => placeOf(a) - placeOf(b)));
  }

  // Deletion and extraction: nodes leave in tree order, so that what is behind one of them is still there.
  function planRemovals(range) {
    const found = held(range);
    const places = new Map(found.map((node) => {
      let previousSibling = node.previousSibling;
      while (found.includes(previousSibling)) previousSibling = previousSibling.previousSibling;
      return [node, { previousSibling, nextSibling: node.nextSibling }];
    }));
    const isIt = (record) => record.type === "childList" && places.has(record.removedNodes[0]);
    const orderOf = ({ removedNodes: [node] }) => found.indexOf(node);
    return (taken) => rewrite(taken, (records) => {
      const removals = records.filter(isIt).sort((a, b) => orderOf(a) - orderOf(b));
      return records.map((record) => {
        const removal = isIt(record) && removals.shift();
        return removal ? copyOf(removal, places.get(removal.removedNodes[0])) : record;
      });
    });
  }

  // Deletion and extraction take all that the range holds: whether it all went, and the command was not refused.
  function planContents(range) {
    const places = held(range).map((node) => [node, node.parentNode]);
    return { call: (cut) => {
      try {
        const answer = cut();
        if (places.every(([node, parent]) => node.parentNode !== parent)) return answer;
      } catch {
        // No deletion or extraction of the protocol is refused by the DOM.
      }
      throw new Unrepresentable("contents-left");
    } };
  }

  // An end that is refused leaves the range as it was.
  function planEnd(run, [range]) {
    const points = new Points({ ranges: [range] });
    return { call: (set) => {
      try {
        return set();
      } catch (error) {
        if (points.put()) run.met.add("refused-end-moves");
        throw error;
      }
    } };
  }

  // The end of a range that is collapsed where a node is inserted that has the place's parent already: behind that node.
  function planInsertNode([range, node]) {
    const start = range.startContainer;
    const parent = start.nodeType === 3 ? start.parentNode : start;
    if (!parent || node.parentNode !== parent) return null;
    const points = new Points({ ranges: [range] });
    points.remove(parent, node, indexOf(node));
    const [first, last] = points.all;
    const isCollapsed = first.node === last.node && first.offset === last.offset;
    let refused = false;
    return {
      call: (insert) => {
        try {
          return insert();
        } catch (error) {
          refused = error.name === "IndexSizeError";
          if (!refused) throw error;
        }
      },
      after: () => {
        const offset = indexOf(node) + 1;
        if (!refused && (!isCollapsed || (range.endContainer === parent && range.endOffset === offset))) return false;
        range.setEnd(parent, offset);
        return true;
      },
    };
  }

  // The Texts below a node, in tree order.
  function textsBelow(top) {
    const texts = [];
    const collect = (node) => node.nodeType === 3 ? texts.push(node) : node.childNodes.forEach(collect);
    top.childNodes.forEach(collect);
    return texts;
  }

  // The Texts directly behind a Text, or in front of it.
  function textsBeside(text, side) {
    const beside = [];
    for (let next = text[side]; next && next.nodeType === 3; next = next[side]) beside.push(next);
    return beside;
  }

  // Each Text with Texts directly behind it gets all their data in one step, and what points into them or at them goes into the first. Where
  // this DOM brings a copy to another tree than these steps do, it is left to it.
  function planNormalize(run, owner, top) {
    const texts = textsBelow(top);
    return { call: (normalize) => {
      if (!joinsAlike(run, top)) return normalize();
      for (const text of texts) if (text.parentNode) join(run, owner, text);
      return undefined;
    } };
  }

  function joinsAlike(run, top) {
    const [joined, normalized] = [0, 1].map(() => {
      const copy = run.makeDocument().createDocumentFragment();
      for (const child of top.childNodes) copy.appendChild(copy.ownerDocument.importNode(child, true));
      return copy;
    });
    for (const text of textsBelow(joined)) if (text.parentNode) join({ met: new Set(), habits: {} }, { ranges: [] }, text);
    normalized.normalize();
    return normalized.isEqualNode(joined);
  }

  function join(run, owner, text) {
    if (text.length === 0) return text.remove();
    const behind = textsBeside(text, "nextSibling");
    if (behind.length === 0) return run.habits.tellsOfLoneTexts ? text.replaceData(text.length, 0, "") : undefined;
    let length = text.length;
    text.replaceData(length, 0, behind.map((one) => one.data).join(""));
    const points = new Points(owner);
    for (const next of behind) {
      const index = indexOf(next);
      for (const point of points.all) {
        if (point.node === next) Object.assign(point, { node: text, offset: length + point.offset });
        else if (point.node === next.parentNode && point.offset === index) Object.assign(point, { node: text, offset: length });
      }
      length += next.length;
    }
    if (points.put() || behind.length > 1 || behind.some((next) => next.length === 0)) run.met.add("normalize-steps");
    for (const next of behind) next.remove();
    return undefined;
  }

  // Own rule: a Text that has none to be joined with has no record. Where this DOM writes one, `join` does too, and it is left out here.
  function planLoneTexts(top) {
    const isLone = (text) => textsBeside(text, "nextSibling").length === 0 && textsBeside(text, "previousSibling").every(({ length }) => length === 0);
    const lone = textsBelow(top).filter(isLone);
    const isOfOne = (record) => record.type === "characterData" && lone.includes(record.target);
    return (taken) => rewrite(taken, (records) => records.filter((record) => !isOfOne(record)));
  }

  // Whether this DOM writes a record of a Text that it joins with none, as the Standard's text does.
  function tellsOfLoneTexts(run) {
    const other = run.makeDocument();
    const parent = other.createElement("p");
    const observer = new run.window.MutationObserver(() => {});
    parent.appendChild(other.createTextNode("a"));
    observer.observe(parent, { characterData: true, childList: false, subtree: true });
    parent.normalize();
    return observer.takeRecords().length > 0;
  }

  // A node gets a new Text also where its only child is a Text of the same data.
  function planSameText(run, owner, [node, text]) {
    const { firstChild } = node;
    return firstChild && node.nodeType !== 9 ? { call: (set) => {
      set();
      if (node.firstChild !== firstChild) return;
      run.met.add("same-text");
      node.replaceChildren(node.ownerDocument.createTextNode(text));
      run.nameAll(owner, node);
    } } : null;
  }

  // A document inside itself is refused as such, before the child is looked at.
  function planDocument(run, name, [parent, node]) {
    if (!["insert", "replace"].includes(name) || node.nodeType !== 9 || !node.contains(parent)) return null;
    return { call: (place) => {
      try {
        place();
      } catch (error) {
        if (error.name !== "NotFoundError") throw error;
        run.met.add("document-inside-itself");
        throw new run.window.DOMException("a document inside itself", "HierarchyRequestError");
      }
    } };
  }

  // In a shadow tree the host has no features, so that no `*` matches it (CSS Scoping, section 3.2.2): each `*` says so.
  function planQuery(run, owner, [root, text]) {
    if (!("host" in root)) return null;
    const narrowed = text.replace(/"[^"]*"|'[^']*'|:not\([\t\n\f\r ]*\*|\*(?!=)/g, (part) => (part === "*" ? "*:not(:host)" : part));
    return narrowed === text ? null : { call: (query) => {
      const plain = query();
      const answer = queryOrNull(run, owner, root, narrowed) || plain;
      if (answer !== plain) run.met.add("host-matched");
      return answer;
    } };
  }

  // What a DOM answers that knows `:host`; null: it knows none.
  function queryOrNull(run, owner, root, text) {
    try {
      return run.showList(owner, root.querySelectorAll(text));
    } catch {
      return null;
    }
  }

  // A fragment that gives its children keeps its document.
  function planFragment(name, values) {
    const fragment = ["append", "insert", "replace", "insert-node"].includes(name) ? values[1] : null;
    if (!fragment || fragment.nodeType !== 11 || fragment.host) return null;
    const { ownerDocument } = fragment;
    return () => {
      if (fragment.ownerDocument === ownerDocument) return false;
      ownerDocument.adoptNode(fragment);
      return true;
    };
  }

  // A record of children in which none came and none went is left out.
  function withoutEmpty(taken) {
    const isEmpty = ({ type, addedNodes, removedNodes }) => type === "childList" && addedNodes.length + removedNodes.length === 0;
    return rewrite(taken, (records) => records.filter((record) => !isEmpty(record)));
  }

  const after = (plan) => plan && { after: plan };
  // What moves iterators, by other commands than their own.
  const ofIterators = (plan) => (run, owner, name, values) => (name.startsWith("iter-") ? null : plan(run, owner, name, values));
  const FIXES = {
    "insert-node-offset": (run, owner, name, values) => (name === "insert-node" ? planInsertNode(values) : null),
    "normalize-steps": (run, owner, name, values) => (name === "normalize" ? planNormalize(run, owner, values[0]) : null),
    "lone-records": (run, owner, name, values) => (name === "normalize" ? after(planLoneTexts(values[0])) : null),
    "same-text": (run, owner, name, values) => (name === "text" ? planSameText(run, owner, values) : null),
    "document-inside-itself": (run, owner, name, values) => planDocument(run, name, values),
    "sibling-inserted": (run, owner, name, values) => (name === "append" || name === "insert" ? after(planInsertion(owner, values)) : null),
    replaced: (run, owner, name, values) => (name === "replace" ? after(planReplacement(owner, values)) : null),
    "split-records": (run, owner, name, values) =>
      name === "split" ? after(planSplit(values[0])) : name === "insert-node" ? after(planSplit(values[0].startContainer)) : null,
    "cut-records": (run, owner, name, values) => (name === "delete" || name === "extract" ? after(planCut(values[0])) : null),
    "backward-records": (run, owner, name, values) => (name === "delete" || name === "extract" ? after(planRemovals(values[0])) : null),
    "refused-end-moves": (run, owner, name, values) => (name === "range-start" || name === "range-end" ? planEnd(run, values) : null),
    "contents-left": (run, owner, name, values) => (name === "delete" || name === "extract" ? planContents(values[0]) : null),
    "split-alone": (run, owner, name, values) => (name === "split" ? after(planSplitAlone(owner, values)) : null),
    "host-matched": (run, owner, name, values) => (name === "query" ? planQuery(run, owner, values) : null),
    "fragment-adopted": (run, owner, name, values) => after(planFragment(name, values)),
    "empty-records": () => ({ after: withoutEmpty }),
    "iterator-kept": ofIterators(planIterators),
    "leaving-together": ofIterators(planEmptied),
    "root-left": ofIterators(planRoots),
    "iterator-untold": ofIterators(planUntold),
    transients: planTransients,
  };

  // What is to be done at a command for these fixes, by name: `call` in place of its call, `after` with the observers behind it.
  function plansFor(run, owner, name, values, options) {
    const plans = run.fixes.filter((fix) => FIXES[fix]).map((fix) => ({ fix, ...FIXES[fix](run, owner, name, values, options) }));
    return plans.filter(({ call, after }) => call || after);
  }

  // What is to be known of a DOM before a script is run with fixes. It is asked then, and in another document,
  // since records that come queue a notification, and some steps are others in a document that was observed.
  const habitsOf = (run) => ({ observesWhatLeft: observesWhatLeft(run), tellsOfLoneTexts: tellsOfLoneTexts(run) });

  exports.fixing = { plansFor, habitsOf };
})(
  typeof module === "object" ? module.exports : globalThis,
  typeof require === "function" ? require("./lasting.js").lasting : globalThis.lasting,
  typeof require === "function" ? require("./slots.js").slots : globalThis.slots,
);
