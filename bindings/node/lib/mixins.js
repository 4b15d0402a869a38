"use strict";
// Mixins of the Standard: members that several interfaces share.
/** Copy the members of mixins to a class's prototype. */
function mix(target, ...mixins) {
  for (const mixin of mixins)
    for (const [name, member] of Object.entries(Object.getOwnPropertyDescriptors(mixin.prototype)))
      if (name !== "constructor") Object.defineProperty(target.prototype, name, member);
}

module.exports = { mix };
