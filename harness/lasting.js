// Iterators and observers where a DOM lets go of what the protocol keeps: fixes of more than one command.
"use strict";
(function (exports) {
  // The DOM cannot be brought to where the protocol is, so here the comparison of a script ends, under the name of a difference.
  class Unrepresentable extends Error {}

  const lastInside = (node) => {
    while (node.lastChild) node = node.lastChild;
    return node;
  };

  // Whether a node of the root's tree comes behind all that is below this one.
  function isFollowed(root, node) {
    for (; node && node !== root; node = node.parentNode) if (node.nextSibling) return true;
    return false;
  }

  // ---- iterators

  // The nodes that a command takes out of their places before all else.
  function leaving(name, values) {
    const places = { append: [1], insert: [1], replace: [2, 1], remove: [0], adopt: [1], "insert-node": [1] };
    return (places[name] || []).map((place) => values[place]);
  }

  const documentOf = (node) => node.ownerDocument || node;

  // An iterator of the same root and filter that stands behind a node; null: this DOM takes no filter.
  function iteratorBehind(iterator, node) {
    const { root, filter } = iterator;
    const shown = filter && filter.shown ? filter.shown : iterator.whatToShow;
    const inner = filter && filter.shown ? filter.inner : filter;
    const all = { shown, inner, open: true };
    all.acceptNode = (one) => {
      if (all.open) return 1;
      if (!((1 << (one.nodeType - 1)) & shown)) return 3;
      return inner ? inner.acceptNode(one) : 1;
    };
    const found = documentOf(root).createNodeIterator(root, 0xffffffff, all);
    try {
      for (let next = found.nextNode(); next && next !== node; next = found.nextNode());
    } catch {
      return null;
    }
    all.open = false;
    return found;
  }

  // Where an iterator goes that is before a node which leaves with nothing behind it: behind the node in front of it.
  function planIterator(owner, number, name, values) {
    const iterator = owner.iterators[number];
    if (!iterator.pointerBeforeReferenceNode) return () => false;
    const { root, referenceNode } = iterator;
    const chain = [];
    for (let node = referenceNode; node && node !== root; node = node.parentNode)
      chain.push({ node, parent: node.parentNode, before: node.previousSibling });
    const gone = chain.find(({ node }) => leaving(name, values).includes(node));
    const stays = gone && !isFollowed(root, gone.node);
    const target = stays && (gone.before ? lastInside(gone.before) : gone.parent);
    return () => {
      const neverLeft = !gone && root.contains(referenceNode);
      if (neverLeft) return false;
      const cut = chain.find(({ parent }) => root.contains(parent) && parent !== referenceNode);
      const left = !root.contains(iterator.referenceNode) && cut;
      const place = left ? (cut.before && cut.before.parentNode === cut.parent ? lastInside(cut.before) : cut.parent) : target;
      if (!place || (iterator.referenceNode === place && !iterator.pointerBeforeReferenceNode)) return false;
      const moved = iteratorBehind(iterator, place);
      owner.iterators[number] = moved || iterator;
      return moved !== null;
    };
  }

  function planIterators(run, owner, name, values) {
    const plans = owner.iterators.map((_, number) => planIterator(owner, number, name, values));
    return { after: () => plans.map((plan) => plan()).includes(true) };
  }

  // The node that a command empties of its children, which a DOM may take out together.
  function emptied(name, values) {
    if (name === "text") return values[0];
    const fragment = ["append", "insert", "replace", "insert-node"].includes(name) ? values[1] : null;
    return fragment && fragment.nodeType === 11 && !fragment.host ? fragment : null;
  }

  // Where an iterator goes that stands behind one of several children which leave together: behind their parent.
  function planEmptied(run, owner, name, values) {
    const parent = emptied(name, values);
    if (!parent || parent.childNodes.length < 2) return null;
    const isWithin = ({ root, referenceNode, pointerBeforeReferenceNode: isBefore }) =>
      !isBefore && root.contains(parent) && referenceNode !== parent && parent.contains(referenceNode);
    const within = owner.iterators.map(isWithin);
    return { after: () => within.map((was, number) => {
      const iterator = owner.iterators[number];
      const moved = was && !iterator.root.contains(iterator.referenceNode) && iteratorBehind(iterator, parent);
      if (moved) owner.iterators[number] = moved;
      return Boolean(moved);
    }).includes(true) };
  }

  // Own rule: an iterator stays where it is when an ancestor of its root leaves.
  function planRoots(run, owner) {
    const places = owner.iterators.map(({ root, referenceNode }) => ({ root, referenceNode }));
    return { after: () => {
      const isOutside = ({ root, referenceNode }, number) =>
        root.contains(referenceNode) && !root.contains(owner.iterators[number].referenceNode);
      if (places.some(isOutside)) throw new Unrepresentable("root-left");
    } };
  }

  // An iterator of a root in another document than the one that made it stays where it was, though what it refers to left its place.
  function planUntold(run, owner, name, values) {
    const gone = leaving(name, values);
    const places = owner.iterators.map((iterator) => {
      const { root, referenceNode: node, pointerBeforeReferenceNode: isBefore } = iterator;
      const isOther = documentOf(root) !== run.first && root.contains(node);
      return { root, node, isBefore, isOther, leaves: gone.some((one) => one !== root && root.contains(one) && one.contains(node)) };
    });
    return { after: () => {
      const isUntold = ({ root, node, isBefore, isOther, leaves }, number) => {
        const { referenceNode, pointerBeforeReferenceNode } = owner.iterators[number];
        return isOther && (leaves || !root.contains(node)) && referenceNode === node && pointerBeforeReferenceNode === isBefore;
      };
      if (places.some(isUntold)) throw new Unrepresentable("iterator-untold");
    } };
  }

  // ---- transient registrations

  const KINDS = ["childList", "attributes", "characterData", "subtree", "attributeOldValue", "characterDataOldValue"];

  // What several registrations ask for together.
  function together(all) {
    const options = { childList: false, subtree: false };
    for (const kind of KINDS) if (all.some((one) => one[kind])) options[kind] = true;
    const ofAttributes = all.filter((one) => one.attributes || one.attributeOldValue || one.attributeFilter);
    if (ofAttributes.length && ofAttributes.every((one) => one.attributeFilter))
      options.attributeFilter = ofAttributes.flatMap((one) => one.attributeFilter);
    return options;
  }

  // Follows an observer: what it observes, the copies of registrations that nodes got by leaving in this turn, and those that it keeps
  // from earlier. A copy has a source: the observed node whose registration it copies, or null where it copies a copy.
  function follow(run, observer) {
    return (observer.lasting = observer.lasting || { observed: new Map(), since: new Map(), left: [], kept: [] });
  }

  function observeOn(observer, node, options) {
    for (const one of [observer.real, observer.twin]) one.observe(node, options);
  }

  // No call gives a node two registrations of one observer.
  function refuseTwo({ observed, kept }) {
    if (kept.some(({ node }) => observed.has(node))) throw new Unrepresentable("transients");
  }

  // The nodes of these copies are observed, each as its copies ask together.
  function observeCopies(observer, copies) {
    for (const node of new Set(copies.map((one) => one.node)))
      observeOn(observer, node, together(copies.filter((one) => one.node === node).map(({ options }) => options)));
  }

  // No call takes one registration away: all go, and those that stay come again.
  function observeAfresh(observer) {
    for (const one of [observer.real, observer.twin]) one.disconnect();
    for (const [node, options] of observer.lasting.observed) observeOn(observer, node, options);
    observeCopies(observer, observer.lasting.kept);
  }

  // A node is observed again: what copies its registration goes, and copies of copies stay. True: a DOM does otherwise.
  function observeAgain(observer, node) {
    const { lasting } = observer;
    const isGone = lasting.kept.some(({ source }) => source === node);
    const copies = lasting.left.filter(({ source }) => isGone ? source !== node : !source);
    lasting.left = lasting.left.filter((one) => one.source !== node && !copies.includes(one));
    lasting.kept = [...lasting.kept.filter(({ source }) => source !== node), ...copies];
    refuseTwo(lasting);
    if (isGone && observer.kept.length) throw new Unrepresentable("transients");
    if (isGone) observeAfresh(observer);
    else observeCopies(observer, copies);
    return isGone || copies.length > 0;
  }

  function planTransients(run, owner, name, values, options) {
    const [observer, node] = values;
    if (name === "observe") {
      const following = follow(run, observer);
      const isAgain = following.observed.has(node);
      return { after: () => {
        following.observed.set(node, options);
        run.registrations = (run.registrations || 0) + 1;
        if (!isAgain) following.since.set(node, run.registrations);
        refuseTwo(following);
        return isAgain && observeAgain(observer, node);
      } };
    }
    if (name === "disconnect") return { after: () => {
      observer.lasting = undefined;
    } };
    return { after: () => {
      const following = owner.observers.filter(({ lasting }) => lasting);
      const taken = run.queue.wanted ? run.queue.wanted.taken : [];
      for (const { lasting } of following) for (const one of taken) if (noteLeft(lasting, one)) run.queue.noteFirst("leaving-notifies");
      if (["remove", "adopt", "normalize", "delete"].includes(name) && isObservedAround(run, taken)) run.queue.noteFirst("removal-notifies");
      return following.length > 0 && !run.habits.observesWhatLeft && following.map(keepLeft).includes(true);
    } };
  }

  // Whether some owner observes a node above one that left, hosts' trees counted in.
  function isObservedAround(run, taken) {
    const all = [...run.owners.values()].flatMap(({ observers }) => observers).filter(({ lasting }) => lasting);
    return all.some(({ lasting }) => taken.some(({ around }) => around.some((node) => lasting.observed.has(node))));
  }

  // Whether this DOM gives what leaves copies of registrations at all.
  function observesWhatLeft(run) {
    const other = run.makeDocument();
    const [parent, child] = [other.createElement("p"), other.createElement("p")];
    const observer = new run.window.MutationObserver(() => {});
    parent.appendChild(child);
    observer.observe(parent, { attributes: true, childList: false, subtree: true });
    child.remove();
    child.setAttribute("id", "");
    return observer.takeRecords().length > 0;
  }

  // What left is observed on from here by the copies that it got. True: something left.
  function keepLeft(observer) {
    const { lasting } = observer;
    const { left } = lasting;
    lasting.left = [];
    lasting.kept.push(...left);
    refuseTwo(lasting);
    observeCopies(observer, lasting.kept);
    return left.length > 0;
  }

  // A node that left its place gets what was asked of all that is below one of the nodes above it. True: there was such.
  function noteLeft(lasting, { node, above }) {
    const sources = [...lasting.observed].filter(([top, options]) => options.subtree && above.includes(top));
    const copied = [...lasting.left, ...lasting.kept].filter((one) => one.options.subtree && above.includes(one.node));
    lasting.left.push(...sources.map(([source, options]) => ({ node, options, source })));
    lasting.left.push(...copied.map(({ options }) => ({ node, options, source: null })));
    return sources.length + copied.length > 0;
  }

  // At the end of a turn: an observer that took a record is notified, and observes no longer what left; another one goes on.
  function endTurn(owner, tookRecords) {
    let met = false;
    for (const observer of owner.observers.filter(({ lasting }) => lasting)) {
      const { lasting } = observer;
      if (tookRecords(observer)) {
        const isKeeping = lasting.kept.length > 0;
        lasting.kept = [];
        if (isKeeping) observeAfresh(observer);
      } else {
        keepLeft(observer);
        met = met || lasting.kept.length > 0;
      }
      lasting.left = [];
    }
    return met;
  }

  // ---- the order in which observers become pending by one command

  const isAsked = (options, { type, attributeName: name }) =>
    type !== "attributes" ? options[type] || (type === "characterData" && options.characterDataOldValue)
      : options.attributeFilter ? options.attributeFilter.includes(name) : options.attributes || options.attributeOldValue;

  // How far above the target of a record the registration stands that an observer has it by, and when that one was made.
  function placeOf({ lasting }, record) {
    const all = [...lasting.observed].map(([node, options]) => ({ node, options, since: lasting.since.get(node) }));
    all.push(...[...lasting.left, ...lasting.kept].map((copy) => ({ ...copy, since: Infinity })));
    let far = 0;
    for (let node = record.target; node; node = node.parentNode, far += 1) {
      const found = all.filter((one) => one.node === node && (far === 0 || one.options.subtree) && isAsked(one.options, record));
      if (found.length) return [far, Math.min(...found.map(({ since }) => since))];
    }
    return [Infinity, Infinity];
  }

  // Of two observers the one whose first record came first: that of a record which the other one has too, but behind it; of one and the
  // same record, that which is nearer to the target, and then that which was there first; else by the steps of the command.
  function compare(one, other, stepOf) {
    const textOf = (observer, record) => observer.line(record).replace(/^(\S+ \S+) \S+/, "$1").replace(/ old=.*/, "");
    const [first, second] = [one, other].map((observer) => observer.fresh.map((record) => textOf(observer, record)));
    if (first[0] !== second[0])
      return second.includes(first[0]) ? 1 : first.includes(second[0]) ? -1 : stepOf(one.fresh[0]) - stepOf(other.fresh[0]) || 0;
    const [place, further] = [one, other].map((observer) => placeOf(observer, observer.fresh[0]));
    return place[0] - further[0] || (place[1] === further[1] ? 0 : place[1] - further[1]);
  }

  // The observers that became pending by one command, in order; `stepOf` tells behind which of its steps a record stands.
  function inOrder(observers, stepOf) {
    return observers.every(({ lasting }) => lasting) ? [...observers].sort((one, other) => compare(one, other, stepOf)) : observers;
  }

  exports.lasting = { inOrder, observesWhatLeft, planIterators, planEmptied, planRoots, planUntold, planTransients, endTurn, Unrepresentable };
})(typeof module === "object" ? module.exports : globalThis);
