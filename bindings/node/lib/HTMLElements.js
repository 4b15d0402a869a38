"use strict";
// The interfaces of HTML that only reflect attributes. What belongs to layout, navigation or media is not here; an address is a string as it is written.
const { reflect } = require("./reflection");

const flag = (name) => [name, "flag"];
const number = (name, missing = 0) => [name, "number", missing];
const SAME = (names) => Object.fromEntries(names.split(" ").map((name) => [name, name]));

/** Each interface with the names of its elements and its properties. */
const INTERFACES = {
  Anchor: ["a", { ...SAME("href target download ping rel hreflang type charset coords name rev shape"), referrerPolicy: "referrerpolicy" }],
  Area: ["area", SAME("alt coords shape href target rel")],
  Audio: ["audio", { ...SAME("src preload"), autoplay: flag("autoplay"), loop: flag("loop"), controls: flag("controls") }],
  BR: ["br", SAME("clear")],
  Base: ["base", SAME("href target")],
  Body: ["body", SAME("background link text")],
  Button: ["button", { ...SAME("name value"), disabled: flag("disabled"), autofocus: flag("autofocus"), formNoValidate: flag("formnovalidate") }],
  Canvas: ["canvas", { width: number("width", 300), height: number("height", 150) }],
  Data: ["data", SAME("value")],
  DataList: ["datalist", {}],
  Details: ["details", { open: flag("open") }],
  Dialog: ["dialog", { open: flag("open") }],
  Div: ["div", SAME("align")],
  DList: ["dl", { compact: flag("compact") }],
  Embed: ["embed", SAME("src type width height")],
  FieldSet: ["fieldset", { ...SAME("name"), disabled: flag("disabled") }],
  Form: ["form", { ...SAME("name action method target enctype autocomplete rel"), acceptCharset: "accept-charset", noValidate: flag("novalidate") }],
  HR: ["hr", { ...SAME("align color size width"), noShade: flag("noshade") }],
  Head: ["head", {}],
  Heading: ["h1 h2 h3 h4 h5 h6", SAME("align")],
  Html: ["html", SAME("version")],
  IFrame: ["iframe", { ...SAME("src srcdoc name allow width height align scrolling"), allowFullscreen: flag("allowfullscreen") }],
  Image: ["img", { ...SAME("alt src srcset sizes name align"), crossOrigin: "crossorigin", useMap: "usemap", isMap: flag("ismap"), width: number("width"),
    height: number("height"), loading: "loading" }],
  LI: ["li", { ...SAME("type"), value: number("value") }],
  Label: ["label", { htmlFor: "for" }],
  Legend: ["legend", SAME("align")],
  Link: ["link", { ...SAME("href rel media type hreflang target"), crossOrigin: "crossorigin", disabled: flag("disabled") }],
  Map: ["map", SAME("name")],
  Meta: ["meta", { ...SAME("name content scheme media"), httpEquiv: "http-equiv" }],
  Meter: ["meter", {}],
  Mod: ["ins del", { cite: "cite", dateTime: "datetime" }],
  OList: ["ol", { ...SAME("type"), reversed: flag("reversed"), start: number("start", 1), compact: flag("compact") }],
  Object: ["object", SAME("data type name width height")],
  OptGroup: ["optgroup", { ...SAME("label"), disabled: flag("disabled") }],
  Output: ["output", SAME("name")],
  Paragraph: ["p", SAME("align")],
  Param: ["param", SAME("name value")],
  Picture: ["picture", {}],
  Pre: ["pre", { width: number("width") }],
  Progress: ["progress", {}],
  Quote: ["blockquote q", SAME("cite")],
  Script: ["script", { ...SAME("src type charset"), crossOrigin: "crossorigin", defer: flag("defer"), noModule: flag("nomodule") }],
  Source: ["source", SAME("src type srcset sizes media")],
  Span: ["span", {}],
  Style: ["style", SAME("media type")],
  Table: ["table", { ...SAME("align border frame rules summary width"), bgColor: "bgcolor", cellPadding: "cellpadding", cellSpacing: "cellspacing" }],
  TableCaption: ["caption", SAME("align")],
  TableCell: ["td th", { ...SAME("headers scope abbr align axis height width"), colSpan: number("colspan", 1), rowSpan: number("rowspan", 1),
    noWrap: flag("nowrap"), bgColor: "bgcolor", vAlign: "valign", ch: "char", chOff: "charoff" }],
  TableCol: ["col colgroup", { ...SAME("align width"), span: number("span", 1), vAlign: "valign" }],
  TableRow: ["tr", { ...SAME("align"), bgColor: "bgcolor", vAlign: "valign" }],
  TableSection: ["tbody thead tfoot", { ...SAME("align"), vAlign: "valign" }],
  Time: ["time", { dateTime: "datetime" }],
  Title: ["title", {}],
  Track: ["track", { ...SAME("kind src srclang label"), default: flag("default") }],
  UList: ["ul", { ...SAME("type"), compact: flag("compact") }],
  Video: ["video", { ...SAME("src preload poster"), autoplay: flag("autoplay"), loop: flag("loop"), controls: flag("controls") }],
};

/** Elements that HTML knows and that have no interface of their own. */
const PLAIN = new Set((
  "abbr acronym address article aside b basefont bdi bdo big center cite code dd dfn dt em figcaption figure footer header hgroup i kbd main mark " +
  "menu nav noembed noframes noscript plaintext rb rp rt rtc ruby s samp search section small strike strong sub summary sup tt u var wbr"
).split(" "));
const CUSTOM = /^[a-z][^A-Z]*-[^A-Z]*$/;

module.exports = (realm) => {
  const interfaces = new Map();

  for (const [short, [names, properties]] of Object.entries(INTERFACES)) {
    const name = `HTML${short}Element`;
    realm[name] = { [name]: class extends realm.HTMLElement {} }[name];
    reflect(realm, realm[name], properties);
    for (const each of names.split(" ")) interfaces.set(each, realm[name]);
  }
  Object.defineProperties(realm.HTMLFormElement.prototype, {
    elements: { get() { return realm.liveElements(() => Array.from(this.querySelectorAll("button, fieldset, input, object, output, select, textarea"))); } },
    length: { get() { return this.elements.length; } },
  });
  Object.defineProperty(realm.HTMLButtonElement.prototype, "type", {
    get() { return { button: "button", reset: "reset" }[this.getAttribute("type")?.toLowerCase()] ?? "submit"; },
    set(value) { this.setAttribute("type", `${value}`); },
    enumerable: true,
    configurable: true,
  });
  Object.defineProperty(realm.HTMLButtonElement.prototype, "form", { get() { return this.closest("form"); }, enumerable: true, configurable: true });

  /** Say which interface elements of these names have. */
  realm.setInterface = (Interface, names) => names.split(" ").forEach((name) => interfaces.set(name, Interface));

  /** The interface of HTML's elements of a name. */
  realm.interfaceOf = (localName) =>
    interfaces.get(localName) ?? (PLAIN.has(localName) || CUSTOM.test(localName) ? realm.HTMLElement : realm.HTMLUnknownElement);
};
