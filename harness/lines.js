// The grammar of the protocol: a line is read into its owner, its command and the words of that command.
// No call of a DOM stands here. docs/PROTOCOL.md describes the lines.
"use strict";
(function (exports) {
  const MAX_LINE = 65536;
  const NAME = /^[A-Za-z_][A-Za-z0-9_-]*$/;
  const NUMBER = /^(0|[1-9][0-9]{0,8})$/;
  const LABEL = /^[A-Za-z0-9_.:-]{1,64}$/;
  const COMPONENT = "c[1-9][0-9]{0,8}(?:\\.[1-9][0-9]{0,8}){0,7}";
  const OWNER = new RegExp(`^(p|${COMPONENT}) `);
  const NODE = new RegExp(`^(?:(n|m)|${COMPONENT}:m)(0|[1-9][0-9]{0,8})$`);
  const KINDS_SHOWN = { element: 1, text: 4, comment: 128, document: 256, fragment: 1024 };
  const MOVES = ["parent", "first", "last", "next", "previous", "next-sibling", "previous-sibling"];

  // The parts of each command behind its name. A part in [ ] may be left out. What a part of a node asks of it stands in `KINDS`.
  const COMMANDS = {
    "new element": "word", "new text": "string", "new comment": "string", "new fragment": "", document: "", attach: "element",
    append: "node node", insert: "node node node", replace: "node node node", remove: "child", adopt: "document node",
    normalize: "node", text: "node string", set: "element word string", unset: "element word", data: "character string",
    "replace-data": "character number number string", split: "text number", tree: "node", attr: "element word", parent: "node",
    docof: "node", children: "node", contains: "node node", connected: "node", "shadow-root": "element", "slot-of": "slottable",
    assigned: "slot", "range-new": "", "range-start": "range node number", "range-end": "range node number",
    "range-collapse": "range end", "range-drop": "range", "range-get": "range", "range-text": "range", extract: "range",
    delete: "range", "insert-node": "range node", "iter-new": "node show [named]", "walk-new": "node show [named]",
    "iter-next": "iterator", "iter-prev": "iterator", "iter-at": "iterator", walk: "walker move", "walk-at": "walker",
    "walk-set": "walker node", query: "container string", matches: "element string",
    listen: "node label label action [capture] [once] [passive]", unlisten: "node label label [capture]",
    dispatch: "node label [bubbles] [cancelable] [composed] [related]", observer: "",
    observe: "observer node [childList] [attributes] [characterData] [subtree] [attributeOldValue] [characterDataOldValue] [filter]",
    disconnect: "observer", take: "observer", micro: "label", ".": "",
  };

  const TABLES = { range: "r", iterator: "i", walker: "w", observer: "o" };

  // The node types that a part of a node takes.
  const KINDS = {
    node: [1, 3, 8, 9, 11], element: [1], slot: [1], child: [1, 3, 8], character: [3, 8], text: [3], document: [9],
    slottable: [1, 3], container: [1, 9, 11],
  };

  // The tokens of a line from a place on, each behind one space: words as { word }, strings as { string }. None: not a line.
  function tokensOf(line, start) {
    const tokens = [];
    const token = /([\x21\x23-\x7e][\x21-\x7e]*)|"((?:[\x20\x21\x23-\x5b\x5d-\x7e]|\\["\\]|\\u[0-9A-Fa-f]{4})*)"/y;
    for (let at = start; at < line.length; at = token.lastIndex) {
      if (line[at] !== " ") return null;
      token.lastIndex = at + 1;
      const found = token.exec(line);
      if (!found) return null;
      tokens.push(found[1] !== undefined ? { word: found[1] } : { string: unescape(found[2]) });
    }
    return tokens;
  }

  function unescape(text) {
    return text.replace(/\\(?:u(....)|(.))/g, (_, digits, sign) => (digits ? String.fromCharCode(parseInt(digits, 16)) : sign));
  }

  function nodeOf(word, owner) {
    const own = owner === "p" ? "n" : "m";
    const found = NODE.exec(word || "");
    return found ? { table: "nodes", foreign: found[1] !== own, number: Number(found[2]) } : null;
  }

  function numberedOf(word, table) {
    const found = (word || "")[0] === TABLES[table] && NUMBER.test(word.slice(1));
    return found ? { table: table + "s", number: Number(word.slice(1)) } : null;
  }

  function showOf(word) {
    if (word === "all") return 0xffffffff;
    const all = Object.keys(KINDS_SHOWN);
    const places = (word || "").split(",").map((kind) => all.indexOf(kind));
    if (places.some((place, i) => place < 0 || (i > 0 && place <= places[i - 1]))) return null;
    return places.reduce((shown, place) => shown + KINDS_SHOWN[all[place]], 0);
  }

  const oneOf = (words) => (token) => (words.includes(token.word) ? token.word : null);
  const READERS = {
    word: (token) => token.word ?? null,
    string: (token) => token.string ?? null,
    number: (token) => (NUMBER.test(token.word ?? "") ? Number(token.word) : null),
    label: (token) => (LABEL.test(token.word ?? "") ? token.word : null),
    show: (token) => showOf(token.word),
    end: oneOf(["start", "end"]),
    move: oneOf(MOVES),
    action: oneOf(["log", "stop", "stop-now", "cancel"]),
  };

  // What a token says as a part of a command; null: it is no such part.
  function read(part, token, owner) {
    if (KINDS[part]) {
      const node = nodeOf(token.word, owner);
      return node && { ...node, part };
    }
    return TABLES[part] ? numberedOf(token.word, part) : READERS[part](token);
  }

  // Reads a part that may be left out from the front of the tokens into the options. False: it is there and wrong.
  function readOption(part, tokens, owner, options) {
    const word = (tokens[0] || {}).word || "";
    const [key, value] = [word.split("=")[0], word.slice(word.indexOf("=") + 1)];
    if (part === "named" && ["skip", "reject"].includes(key) && word.includes("=")) {
      options.named = { verdict: key, name: value };
      tokens.shift();
      return NAME.test(value);
    }
    if (part === "filter" && key === "filter" && word.includes("=")) {
      options.attributeFilter = value.split(",");
      tokens.shift();
      return options.attributeFilter.every((name) => NAME.test(name));
    }
    if (part !== word || part === "named" || part === "filter") return true;
    tokens.shift();
    options[part] = part !== "related" || (tokens.length > 0 && read("node", tokens.shift(), owner));
    return Boolean(options[part]);
  }

  function commandOf(tokens, owner) {
    const first = tokens.shift();
    const name = first && first.word === "new" && tokens.length ? "new " + tokens.shift().word : first && first.word;
    if (!Object.hasOwn(COMMANDS, name) || (owner === "p" && name === "assigned")) return null;
    const [values, options] = [[], {}];
    for (const part of COMMANDS[name].split(" ").filter(Boolean)) {
      if (part[0] === "[") {
        if (!readOption(part.slice(1, -1), tokens, owner, options)) return null;
      } else {
        const value = tokens.length ? read(part, tokens.shift(), owner) : null;
        if (value === null) return null;
        values.push(value);
      }
    }
    return tokens.length ? null : { name, values, options };
  }

  // Reads a line without its end: { owner } is null where no owner begins it, and { command } where it is not in the grammar.
  function parse(line) {
    const owner = OWNER.exec(line);
    if (!owner) return { owner: null };
    const tokens = line.length > MAX_LINE ? null : tokensOf(line, owner[1].length);
    return { owner: owner[1], command: tokens && commandOf(tokens, owner[1]) };
  }

  // The lines of a script; a last one without its end is one where it is not empty.
  function linesOf(script) {
    const lines = script.split("\n");
    if (lines[lines.length - 1] === "") lines.pop();
    return lines;
  }

  // The grammar of selectors, as one expression.
  const S = "[\\t\\n\\f\\r ]*";
  const N = "[A-Za-z_][A-Za-z0-9_-]*";
  const VALUE = `(?:${N}|"[^"\\\\\\n\\f\\r]*"|'[^'\\\\\\n\\f\\r]*')`;
  const SIMPLE = `(?:[#.]${N}|\\[${S}${N}${S}(?:[~|^$*]?=${S}${VALUE}${S})?\\]|:first-child|:last-child)`;
  const PLAIN = `(?:(?:${N}|\\*)${SIMPLE}*|${SIMPLE}+)`;
  const PART = `(?:${SIMPLE}|:not\\(${S}${PLAIN}${S}\\))`;
  const COMPOUND = `(?:(?:${N}|\\*)${PART}*|${PART}+)`;
  const COMPLEX = `${COMPOUND}(?:(?:${S}[>+~]${S}|[\\t\\n\\f\\r ]+)${COMPOUND})*`;
  const SELECTOR = new RegExp(`^${S}${COMPLEX}(?:${S},${S}${COMPLEX})*${S}$`);

  exports.protocol = { parse, linesOf, KINDS, isName: (text) => NAME.test(text), isSelector: (text) => SELECTOR.test(text) };
})(typeof module === "object" ? module.exports : globalThis);
