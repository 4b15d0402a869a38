// Calls that a browser never ends. They are not made in its page, and the script's comparison ends there, with fixes and without.
"use strict";
(function ({ owlantimony, navigator, Range }) {
  // Firefox 153 goes round without an end where it deletes the contents of a range that starts in a child of a slot to which others are
  // assigned, and ends in the parent of that slot. (It extracts them.) Where nothing is behind the start in that child it ends, and where
  // the start is further below was not tried: neither is told apart here.
  if (!/Firefox\//.test(navigator.userAgent)) return;
  const { deleteContents } = Range.prototype;
  const isTaken = (node) => node.localName === "slot" && node.assignedNodes().length > 0;

  Range.prototype.deleteContents = function () {
    for (let node = this.startContainer.parentNode; node && node !== this.endContainer; node = node.parentNode)
      if (isTaken(node) && node.parentNode === this.endContainer) return owlantimony.stop("delete-endless");
    return deleteContents.call(this);
  };
})(globalThis);
