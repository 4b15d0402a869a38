"use strict";
// SVGElement, as far as it speaks of the document. Its namespace is carried beside the tree.
const { mix } = require("./mixins");

module.exports = (realm) => {
  class SVGElement extends realm.Element {
    /** The class, as SVG shows it. */
    get className() {
      const element = this;
      const animated = {
        get baseVal() { return element.getAttribute("class") ?? ""; },
        set baseVal(value) { element.setAttribute("class", `${value}`); },
        get animVal() { return this.baseVal; },
      };
      return animated;
    }

    get ownerSVGElement() {
      for (let at = this.parentNode; at instanceof SVGElement; at = at.parentNode) if (at.localName === "svg") return at;
      return null;
    }

    get viewportElement() { return this.ownerSVGElement; }
  }
  mix(SVGElement, realm.mixins.GlobalEventHandlers, realm.mixins.HTMLOrSVGElement);
  realm.SVGElement = SVGElement;
  realm.SVGSVGElement = class SVGSVGElement extends SVGElement {};
  realm.svgInterfaceOf = (localName) => (localName === "svg" ? realm.SVGSVGElement : SVGElement);
};
