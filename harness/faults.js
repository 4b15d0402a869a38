// Wrong behaviours that are planted in a window, under the adapter, to see that the judging sees them. Each is named by the script of
// planted/ that shows it, and by what is wrong.
"use strict";
(function (exports) {
  // Puts what `make` makes of it in the place of a method.
  function wrap(object, name, make) {
    const original = object[name];
    object[name] = make(original);
  }

  function wrapGetter(object, name, make) {
    const { get, set } = Object.getOwnPropertyDescriptor(object, name);
    Object.defineProperty(object, name, { get() { return make(this, get.call(this)); }, set, configurable: true });
  }

  // What a listener is called by is looked at first: it is called where `isHeard` says so.
  function gate(window, isHeard) {
    wrap(window.EventTarget.prototype, "addEventListener", (add) => function (type, listener, options) {
      return add.call(this, type, (event) => (isHeard(event) ? listener(event) : undefined), options);
    });
  }

  const isOfSlot = (event) => event.type === "slotchange" && event.isTrusted;

  // The events of signalled slots are sent anew, to the slots and in the order that `change` makes of theirs.
  function refire(window, change) {
    let slots = [];
    gate(window, (event) => {
      if (!isOfSlot(event)) return true;
      if (slots.length === 0) window.queueMicrotask(() => {
        const sent = change(slots);
        slots = [];
        for (const slot of sent) slot.dispatchEvent(new window.Event("slotchange", { bubbles: true }));
      });
      if (!slots.includes(event.target)) slots.push(event.target);
      return false;
    });
    wrap(window.Document.prototype, "createElement", (create) => function (name) {
      const element = create.call(this, name);
      if (name === "slot") element.addEventListener("slotchange", () => {});
      return element;
    });
  }

  // A slot gets an event that it was not to get, with the microtasks of this turn.
  const signal = (window, slot) => window.queueMicrotask(() => slot.dispatchEvent(new window.Event("slotchange", { bubbles: true })));

  // Observers are given other records.
  function alter(window, change) {
    window.MutationObserver = class extends window.MutationObserver {
      constructor(callback) {
        super((records, observer) => callback(change(records), observer));
      }

      takeRecords() {
        return change(super.takeRecords());
      }
    };
  }

  const NAMES = ["type", "target", "addedNodes", "removedNodes", "previousSibling", "nextSibling", "attributeName", "oldValue"];
  const copyOf = (record, changes) => ({ ...Object.fromEntries(NAMES.map((name) => [name, record[name]])), ...changes });
  const alterEach = (change) => (window) => alter(window, (records) => records.map((record) => copyOf(record, change(record))));

  const alterOptions = (change) => (window) =>
    wrap(window.MutationObserver.prototype, "observe", (observe) => function (node, options) {
      return observe.call(this, node, { ...options, ...change(options) });
    });

  const alterListening = (change) => (window) =>
    wrap(window.EventTarget.prototype, "addEventListener", (add) => function (type, listener, options) {
      return add.call(this, type, listener, { ...options, ...(type === "slotchange" ? {} : change) });
    });

  const alterEvents = (change) => (window) => {
    window.Event = class extends window.Event {
      constructor(type, options) {
        super(type, { ...options, ...change });
      }
    };
  };

  // Ranges stay where they were over a method of nodes.
  const keepRanges = (object, name) => (window) => {
    const ranges = [];
    wrap(window.Document.prototype, "createRange", (create) => function () {
      ranges.push(create.call(this));
      return ranges[ranges.length - 1];
    });
    wrap(window[object].prototype, name, (call) => function (...words) {
      const places = ranges.map((range) => [range.startContainer, range.startOffset, range.endContainer, range.endOffset]);
      const answer = call.apply(this, words);
      ranges.forEach((range, i) => {
        const lengthOf = (node) => (node.nodeType === 3 || node.nodeType === 8 ? node.length : node.childNodes.length);
        const [start, from, end, to] = places[i];
        range.setStart(start, Math.min(from, lengthOf(start)));
        range.setEnd(end, Math.min(to, lengthOf(end)));
      });
      return answer;
    });
  };

  const replaceMethod = (object, name, instead) => (window) => wrap(window[object].prototype, name, (original) => function (...words) {
    return instead.call(this, original.bind(this), words, window);
  });

  const hosts = new Map();
  const keepHosts = (window) => wrap(window.Element.prototype, "attachShadow", (attach) => function (options) {
    const root = attach.call(this, options);
    hosts.set(this, root);
    return root;
  });

  // An event is shown with what it was sent at as its target, without any retargeting.
  function keepTarget(window) {
    let sent = null;
    wrap(window.EventTarget.prototype, "dispatchEvent", (dispatch) => function (event) {
      sent = this;
      try {
        return dispatch.call(this, event);
      } finally {
        sent = null;
      }
    });
    wrapGetter(window.Event.prototype, "target", (event, target) => sent || target);
  }

  const FAULTS = {
    // ---- slots
    "slots/never-told": (window) => refire(window, () => []),
    "slots/told-twice": (window) => refire(window, (slots) => [...slots, ...slots]),
    "slots/not-bubbling": (window) => gate(window, (event) => !isOfSlot(event) || event.target === event.currentTarget),
    "slots/composed": (window) => gate(window, (event) => {
      const { host } = event.currentTarget;
      if (isOfSlot(event) && host) window.queueMicrotask(() => host.dispatchEvent(new window.Event("slotchange")));
      return true;
    }),
    "slots/wrong-target": (window) => wrapGetter(window.Event.prototype, "target", (event, target) =>
      (isOfSlot(event) && event.currentTarget !== target ? target.parentNode || target : target)),
    "slots/bare-slot-untold": (window) => refire(window, (slots) => slots.filter((slot) => slot.assignedNodes().length)),
    "slots/new-before-old": (window) => refire(window, (slots) => [...slots].reverse()),
    "slots/last-alone": (window) => refire(window, (slots) => slots.slice(-1)),
    "slots/first-alone": (window) => refire(window, (slots) => slots.slice(0, 1)),
    "slots/tree-order-always": (window) => refire(window, (slots) =>
      [...slots].sort((a, b) => (a.compareDocumentPosition(b) & 4 ? -1 : 1))),
    "slots/name-set-again": replaceMethod("Element", "setAttribute", function (set, [name, value], window) {
      if (this.localName === "slot" && name === "name" && this.getAttribute(name) === value) signal(window, this);
      return set(name, value);
    }),
    "slots/comment-of-host": replaceMethod("Node", "appendChild", function (append, [node], window) {
      const slot = node.nodeType === 8 && hosts.has(this) && hosts.get(this).querySelector("slot");
      if (slot) signal(window, slot);
      return append(node);
    }),
    "slots/unassigned-child": replaceMethod("Element", "setAttribute", function (set, [name, value], window) {
      const slot = name === "slot" && hosts.has(this.parentNode) && hosts.get(this.parentNode).querySelector("slot");
      set(name, value);
      if (slot && !this.assignedSlot) signal(window, slot);
    }),
    "slots/before-records": (window) => {
      window.MutationObserver = class extends window.MutationObserver {
        constructor(callback) {
          super((records, observer) => window.queueMicrotask(() => callback(records, observer)));
        }
      };
    },
    "slots/assigned-backwards": replaceMethod("HTMLSlotElement", "assignedNodes", (assigned) => assigned().reverse()),
    "slots/assigned-without-texts": replaceMethod("HTMLSlotElement", "assignedNodes", (assigned) => assigned().filter(({ nodeType }) => nodeType === 1)),
    "slots/inner-listeners-deaf": (window) => gate(window, (event) => !isOfSlot(event) || event.target.getRootNode() === event.currentTarget.getRootNode()),
    "slots/shown-to-the-page": replaceMethod("Element", "attachShadow", (attach) => attach({ mode: "open" })),

    // ---- records
    "records/siblings-swapped": alterEach(({ previousSibling, nextSibling }) => ({ previousSibling: nextSibling, nextSibling: previousSibling })),
    "records/no-previous-sibling": alterEach(() => ({ previousSibling: null })),
    "records/no-next-sibling": alterEach(() => ({ nextSibling: null })),
    "records/old-value-missing": alterEach(() => ({ oldValue: null })),
    "records/old-value-always": alterOptions(({ attributes, attributeOldValue }) => (attributes || attributeOldValue ? { attributeOldValue: true } : {})),
    "records/added-missing": alterEach(({ removedNodes, addedNodes }) => ({ addedNodes: removedNodes.length ? [] : addedNodes })),
    "records/removed-backwards": alterEach(({ removedNodes }) => ({ removedNodes: [...removedNodes].reverse() })),
    "records/backwards": (window) => alter(window, (records) => [...records].reverse()),
    "records/twice": (window) => alter(window, (records) => records.flatMap((record) => [record, record])),
    "records/last-one-lost": (window) => alter(window, (records) => (records.length > 1 ? records.slice(0, -1) : records)),
    "records/filter-ignored": alterOptions(({ attributeFilter }) => (attributeFilter ? { attributeFilter: undefined, attributes: true } : {})),
    "records/subtree-ignored": alterOptions(() => ({ subtree: false })),
    "records/subtree-always": alterOptions(() => ({ subtree: true })),
    "records/same-value-untold": replaceMethod("Element", "setAttribute", function (set, [name, value]) {
      if (this.getAttribute(name) !== value) set(name, value);
    }),
    "records/disconnect-does-nothing": replaceMethod("MutationObserver", "disconnect", () => {}),
    "records/observe-adds-options": (window) => {
      const all = new WeakMap();
      wrap(window.MutationObserver.prototype, "observe", (observe) => function (node, options) {
        const both = { ...(all.get(this) || {}), ...Object.fromEntries(Object.entries(options).filter(([, value]) => value)) };
        all.set(this, both);
        return observe.call(this, node, both);
      });
    },

    // ---- microtasks
    "microtasks/last-first": (window) => {
      let queued = [];
      wrap(window, "queueMicrotask", (queue) => (callback) => {
        if (queued.push(callback) === 1) queue(() => queued.splice(0).reverse().forEach((one) => one()));
      });
    },
    "microtasks/behind-records": (window) => wrap(window, "queueMicrotask", (queue) => (callback) => queue(() => queue(callback))),
    "microtasks/at-once": (window) => wrap(window, "queueMicrotask", () => (callback) => callback()),
    "microtasks/notification-for-nothing": (window) => {
      const nobody = new window.MutationObserver(() => {});
      wrap(window.MutationObserver.prototype, "observe", (observe) => function (node, options) {
        observe.call(nobody, node.getRootNode(), { attributes: true, characterData: true, childList: true, subtree: true });
        return observe.call(this, node, options);
      });
    },
    "microtasks/observers-backwards": (window) => {
      let told = [];
      window.MutationObserver = class extends window.MutationObserver {
        constructor(callback) {
          super((records, observer) => {
            if (told.push(() => callback(records, observer)) === 1) queueMicrotask(() => told.splice(0).reverse().forEach((one) => one()));
          });
        }
      };
    },
    "microtasks/records-in-two-notifications": (window) => {
      window.MutationObserver = class extends window.MutationObserver {
        constructor(callback) {
          super((records, observer) => {
            callback(records.slice(0, 1), observer);
            if (records.length > 1) window.queueMicrotask(() => callback(records.slice(1), observer));
          });
        }
      };
    },

    // ---- paths
    "paths/shadow-roots-shown": (window) => {
      keepHosts(window);
      wrap(window.Event.prototype, "composedPath", (path) => function () {
        return path.call(this).flatMap((node) => (hosts.has(node) && !path.call(this).includes(hosts.get(node)) ? [hosts.get(node), node] : [node]));
      });
    },
    "paths/cut-at-the-root": (window) => wrap(window.Event.prototype, "composedPath", (path) => function () {
      const nodes = path.call(this);
      const end = nodes.findIndex(({ host }) => host);
      return end < 0 ? nodes : nodes.slice(0, end + 1);
    }),
    "paths/current-first": (window) => wrap(window.Event.prototype, "composedPath", (path) => function () {
      return path.call(this).slice(path.call(this).indexOf(this.currentTarget));
    }),
    "paths/slots-left-out": (window) => wrap(window.Event.prototype, "composedPath", (path) => function () {
      return path.call(this).filter(({ localName }) => localName !== "slot");
    }),
    "paths/host-bubbles": (window) => {
      keepHosts(window);
      wrapGetter(window.Event.prototype, "eventPhase", (event, phase) => (phase === 2 && hosts.has(event.currentTarget) ? 3 : phase));
    },
    "paths/target-inside": keepTarget,
    "paths/never-composed": alterEvents({ composed: false }),
    "paths/always-composed": alterEvents({ composed: true }),
    "paths/always-bubbling": alterEvents({ bubbles: true }),
    "paths/cancel-untold": replaceMethod("EventTarget", "dispatchEvent", (dispatch, [event]) => dispatch(event) || true),
    "paths/passive-cancels": alterListening({ passive: false }),
    "paths/no-capture": alterListening({ capture: false }),
    "paths/once-stays": (window) => {
      alterListening({ once: false })(window);
      wrap(window.EventTarget.prototype, "removeEventListener", () => () => {});
    },
    "paths/stop-does-nothing": replaceMethod("Event", "stopPropagation", () => {}),
    "paths/stop-now-is-stop": replaceMethod("Event", "stopImmediatePropagation", function () {
      this.stopPropagation();
    }),

    // ---- ranges
    "ranges/unmoved-by-insertion": keepRanges("Node", "insertBefore"),
    "ranges/unmoved-by-removal": keepRanges("Element", "remove"),
    "ranges/unmoved-by-splitting": keepRanges("Text", "splitText"),
    "ranges/unmoved-by-data": keepRanges("CharacterData", "replaceData"),
    "ranges/collapse-swapped": replaceMethod("Range", "collapse", (collapse, [toStart]) => collapse(!toStart)),
    "ranges/text-of-all": replaceMethod("Range", "toString", function () {
      return this.commonAncestorContainer.textContent;
    }),
    "ranges/extract-copies": replaceMethod("Range", "extractContents", function () {
      const copy = this.cloneContents();
      this.deleteContents();
      return copy;
    }),
    "ranges/insert-at-the-end": replaceMethod("Range", "insertNode", function (insert, [node]) {
      const end = this.cloneRange();
      end.collapse(false);
      end.insertNode(node);
    }),
    "ranges/offset-clamped": replaceMethod("Range", "setStart", (set, [node, offset]) =>
      set(node, Math.min(offset, node.nodeType === 3 ? node.length : node.childNodes.length))),

    // ---- iterators and walkers
    "cursors/root-left-out": replaceMethod("NodeIterator", "nextNode", function (next) {
      const node = next();
      return node === this.root ? next() : node;
    }),
    "cursors/back-skips-one": replaceMethod("NodeIterator", "previousNode", (previous) => previous() && previous()),
    "cursors/always-before": (window) => wrapGetter(window.NodeIterator.prototype, "pointerBeforeReferenceNode", () => true),
    "cursors/stays-with-what-left": (window) => {
      const last = new WeakMap();
      wrap(window.NodeIterator.prototype, "nextNode", (next) => function () {
        const node = next.call(this);
        if (node) last.set(this, node);
        return node;
      });
      wrapGetter(window.NodeIterator.prototype, "referenceNode", (iterator, node) => last.get(iterator) || node);
    },
    "cursors/all-shown": (window) => {
      wrap(window.Document.prototype, "createNodeIterator", (create) => function (root, shown, filter) {
        return create.call(this, root, 0xffffffff, filter);
      });
    },
    "cursors/reject-is-skip": (window) => wrap(window.Document.prototype, "createTreeWalker", (create) => function (root, shown, filter) {
      return create.call(this, root, shown, filter && { acceptNode: (node) => (filter.acceptNode(node) === 2 ? 3 : filter.acceptNode(node)) });
    }),
    "cursors/skip-is-reject": (window) => wrap(window.Document.prototype, "createTreeWalker", (create) => function (root, shown, filter) {
      return create.call(this, root, shown, filter && { acceptNode: (node) => (filter.acceptNode(node) === 3 ? 2 : filter.acceptNode(node)) });
    }),
    "cursors/parent-of-the-root": replaceMethod("TreeWalker", "parentNode", function () {
      this.currentNode = this.currentNode.parentNode || this.currentNode;
      return this.currentNode;
    }),
    "cursors/last-is-first": replaceMethod("TreeWalker", "lastChild", function () {
      return this.firstChild();
    }),
    "cursors/previous-stays-among-siblings": replaceMethod("TreeWalker", "previousNode", function () {
      return this.previousSibling();
    }),

    // ---- refusals
    "refusals/not-found-first": replaceMethod("Node", "insertBefore", function (insert, [node, child], window) {
      if (child && child.parentNode !== this) throw new window.DOMException("", "NotFoundError");
      return insert(node, child);
    }),
    "refusals/replace-not-found-first": replaceMethod("Node", "replaceChild", function (replace, [node, child], window) {
      if (child.parentNode !== this) throw new window.DOMException("", "NotFoundError");
      return replace(node, child);
    }),
    "refusals/hierarchy-is-not-found": replaceMethod("Node", "appendChild", function (append, [node], window) {
      if (node.contains(this)) throw new window.DOMException("", "NotFoundError");
      return append(node);
    }),
    "refusals/second-host-is-taken": replaceMethod("Element", "attachShadow", function (attach, [options], window) {
      try {
        return attach(options);
      } catch {
        return window.document.createElement("div").attachShadow(options);
      }
    }),
    "refusals/offset-clamped": replaceMethod("CharacterData", "replaceData", function (replace, [offset, count, data]) {
      return replace(Math.min(offset, this.length), count, data);
    }),
    "refusals/document-is-adopted": replaceMethod("Document", "adoptNode", (adopt, [node]) => (node.nodeType === 9 ? node : adopt(node))),

    // ---- nodes, attributes and selectors
    "nodes/names-in-lower-case": replaceMethod("Document", "createElement", (create, [name]) => create(name.toLowerCase())),
    "nodes/attribute-goes-last": replaceMethod("Element", "setAttribute", function (set, [name, value]) {
      this.removeAttribute(name);
      return set(name, value);
    }),
    "nodes/empty-texts-stay": replaceMethod("Node", "normalize", () => {}),
    "nodes/empty-text-is-made": (window) => {
      const { get, set } = Object.getOwnPropertyDescriptor(window.Node.prototype, "textContent");
      Object.defineProperty(window.Node.prototype, "textContent", { get, set(data) {
        set.call(this, data);
        if (data === "" && this.nodeType === 1) this.appendChild(this.ownerDocument.createTextNode(""));
      } });
    },
    "nodes/closed-trees-unconnected": (window) => wrapGetter(window.Node.prototype, "isConnected", (node, value) => value && !node.getRootNode().host),
    "nodes/contains-not-itself": replaceMethod("Node", "contains", function (contains, [other]) {
      return other !== this && contains(other);
    }),
    "nodes/adopted-tree-keeps-its-document": (window) => {
      const first = new WeakMap();
      wrapGetter(window.Node.prototype, "ownerDocument", (node, document) => {
        if (node.parentNode && !first.has(node)) first.set(node, document);
        return node.parentNode ? first.get(node) : document;
      });
    },
    "nodes/query-backwards": replaceMethod("Document", "querySelectorAll", (query, [text]) => [...query(text)].reverse()),
    "nodes/query-with-itself": replaceMethod("Element", "querySelectorAll", function (query, [text]) {
      return [...(this.matches(text) ? [this] : []), ...query(text)];
    }),
    "nodes/matches-in-any-case": replaceMethod("Element", "matches", (matches, [text]) => matches(text.replace(/='/g, "='").replace(/'\]/g, "' i]"))),
    "nodes/not-ignored": replaceMethod("Element", "matches", (matches, [text]) => matches(text.replace(/:not\([^)]*\)/g, ":not(x)"))),
  };

  // Plants a wrong behaviour in a window.
  function plant(window, name) {
    hosts.clear();
    if (name.startsWith("slots/")) keepHosts(window);
    FAULTS[name](window);
  }

  exports.planting = { plant, names: Object.keys(FAULTS) };
})(typeof module === "object" ? module.exports : globalThis);
