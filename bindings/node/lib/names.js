"use strict";
// Names in the engine. There a name of an element or an attribute is a letter or '_', and then letters, digits, '-' and '_'; a type of events is 1 to 64
// letters, digits, '-', '_', '.' and ':'. Any other name is written with such characters, one name for one, so that the engine holds it in its place
// among the others: '_-' and then each character that is no letter, digit or '-' as '_' and four hexadecimal digits.
const { engine, checked } = require("./engine");

const PLAIN = /^(?!_-)[A-Za-z_][A-Za-z0-9_-]*$/;
const PLAIN_TYPE = /^(?!_-)[A-Za-z0-9_.:-]{1,64}$/;
const MARK = "_-";

/** The name that the engine holds for a name. */
function written(name) {
  if (PLAIN.test(name)) return name;
  return MARK + name.replace(/[^A-Za-z0-9-]/g, (unit) => "_" + unit.charCodeAt(0).toString(16).padStart(4, "0"));
}

/** The name that is meant by a name that the engine holds. */
function read(name) {
  if (!name.startsWith(MARK)) return name;
  return name.slice(MARK.length).replace(/_([0-9a-f]{4})/g, (_, digits) => String.fromCharCode(parseInt(digits, 16)));
}

/** A table that gives each name a number in the addon, and asks once. */
function table(write) {
  const numbers = new Map();
  return (name) => {
    let number = numbers.get(name);
    if (number === undefined) {
      number = checked(engine.name(write(name, numbers.size)));
      numbers.set(name, number);
    }
    return number;
  };
}

/** The number of a name of elements and attributes. */
const nameNumber = table(written);

/** The number of a type of events. Other types than the engine's are told apart by a count. */
const typeNumber = table((type, count) => (PLAIN_TYPE.test(type) ? type : `${MARK}:${count}`));

/** The number of a list of names of attributes. */
const namesNumber = table((names) => names);

/** An attribute's name in the engine: one with a namespace is written with it. */
function attributeKey(namespace, qualified) {
  return namespace === null ? qualified : `{${namespace}}${qualified}`;
}

/** The parts of an attribute's name, of a name that the engine holds. */
function attributeParts(held) {
  const key = read(held);
  const end = key.startsWith("{") ? key.lastIndexOf("}") : -1;
  const qualified = key.slice(end + 1);
  if (end < 0) return { key, namespaceURI: null, prefix: null, localName: key, name: key };
  const colon = qualified.indexOf(":");
  const prefix = colon < 0 ? null : qualified.slice(0, colon);
  return { key, namespaceURI: key.slice(1, end), prefix, localName: qualified.slice(colon + 1), name: qualified };
}

// The names that the Standard takes: those of XML.
const START = ":A-Z_a-z\\u00C0-\\u00D6\\u00D8-\\u00F6\\u00F8-\\u02FF\\u0370-\\u037D\\u037F-\\u1FFF\\u200C\\u200D\\u2070-\\u218F\\u2C00-\\u2FEF" +
  "\\u3001-\\uD7FF\\uF900-\\uFDCF\\uFDF0-\\uFFFD\\u{10000}-\\u{EFFFF}";
const NAME = new RegExp(`^[${START}][${START}\\-.0-9\\u00B7\\u0300-\\u036F\\u203F-\\u2040]*$`, "u");

const MOST_KNOWN = 10_000;
const known = new Set();

/** Throw if a name is none. */
function validName(name) {
  if (known.has(name)) return;
  if (!NAME.test(name)) throw new DOMException(`"${name}" is not a name`, "InvalidCharacterError");
  if (known.size < MOST_KNOWN) known.add(name);
}

const XML = "http://www.w3.org/XML/1998/namespace";
const XMLNS = "http://www.w3.org/2000/xmlns/";

/** Take a qualified name apart, as the Standard validates and extracts it: its namespace, prefix and local name. */
function extract(namespace, qualified) {
  const namespaceURI = namespace === "" || namespace === undefined ? null : namespace;
  validName(qualified);
  const parts = qualified.split(":");
  if (parts.length > 2 || parts.some((part) => part === "" || !NAME.test(part)))
    throw new DOMException(`"${qualified}" is not a qualified name`, "InvalidCharacterError");
  const prefix = parts.length === 2 ? parts[0] : null;
  const localName = parts[parts.length - 1];
  const isDeclaration = qualified === "xmlns" || prefix === "xmlns";
  if ((prefix !== null && namespaceURI === null) || (prefix === "xml" && namespaceURI !== XML) || isDeclaration !== (namespaceURI === XMLNS))
    throw new DOMException(`"${qualified}" is not a name of its namespace`, "NamespaceError");
  return { namespaceURI, prefix, localName };
}

module.exports = { written, read, nameNumber, typeNumber, namesNumber, attributeKey, attributeParts, validName, extract };
