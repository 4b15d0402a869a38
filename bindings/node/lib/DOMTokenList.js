"use strict";
// DOMTokenList of the DOM Standard: the tokens of an attribute, as classList.
const { liveList } = require("./lists");

const SPACE = /[\t\n\f\r ]+/;

/** A string as the set of its tokens, in order. */
function tokensOf(value) {
  return [...new Set(value.split(SPACE).filter((token) => token !== ""))];
}

/** Throw if a token is none. */
function validToken(token) {
  if (token === "") throw new DOMException("a token is empty", "SyntaxError");
  if (SPACE.test(token)) throw new DOMException("a token has white space", "InvalidCharacterError");
  return token;
}

module.exports = (realm) => {
  const ELEMENT = Symbol("element");
  const NAME = Symbol("attribute");

  /** Change the tokens: an attribute that is not there stays away if none is left. */
  function update(list, tokens) {
    if (list[ELEMENT].hasAttribute(list[NAME]) || tokens.length > 0) list[ELEMENT].setAttribute(list[NAME], tokens.join(" "));
  }

  class DOMTokenList {
    constructor(key) {
      if (key !== realm.KEY) throw new TypeError("Illegal constructor");
    }

    get value() { return this[ELEMENT].getAttribute(this[NAME]) ?? ""; }
    set value(value) { this[ELEMENT].setAttribute(this[NAME], `${value}`); }
    item(index) { return this[index >>> 0] ?? null; }
    contains(token) { return tokensOf(this.value).includes(`${token}`); }
    toString() { return this.value; }

    add(...tokens) {
      const added = tokens.map((token) => validToken(`${token}`));
      update(this, [...new Set([...tokensOf(this.value), ...added])]);
    }

    remove(...tokens) {
      const removed = tokens.map((token) => validToken(`${token}`));
      update(this, tokensOf(this.value).filter((token) => !removed.includes(token)));
    }

    toggle(given, force) {
      const token = validToken(`${given}`);
      const has = this.contains(token);
      if (has ? force === undefined || !force : force === undefined || force) {
        if (has) this.remove(token);
        else this.add(token);
        return !has;
      }
      return has;
    }

    replace(given, by) {
      const [token, other] = [`${given}`, `${by}`];
      if (token === "" || other === "") throw new DOMException("a token is empty", "SyntaxError");
      const tokens = tokensOf(this.value);
      const at = tokens.indexOf(validToken(token));
      validToken(other);
      if (at < 0) return false;
      tokens[at] = other;
      update(this, [...new Set(tokens)]);
      return true;
    }
  }
  for (const name of ["forEach", "entries", "keys", "values"]) DOMTokenList.prototype[name] = Array.prototype[name];
  DOMTokenList.prototype[Symbol.iterator] = Array.prototype[Symbol.iterator];
  realm.DOMTokenList = DOMTokenList;

  const { made } = liveList(realm, DOMTokenList);
  realm.tokens = (element, name) => {
    const list = made(() => tokensOf(element.getAttribute(name) ?? ""));
    Object.defineProperties(list, { [ELEMENT]: { value: element }, [NAME]: { value: name } });
    return list;
  };
};
