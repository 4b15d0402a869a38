// Steps through every script of the page by the keys that a reader has, and tells for each script how many steps there were, and what was
// wrong with what they showed. It stands in the page, after its own script.
"use strict";
function stepThrough() {
  const press = (key) => document.dispatchEvent(new KeyboardEvent("keydown", { key, bubbles: true }));
  const told = [];
  scripts.forEach((script, number) => {
    $("scripts").value = String(number);
    $("scripts").dispatchEvent(new Event("change"));
    const wrong = [];
    press("Home");
    script.steps.forEach((step, place) => {
      const shown = $("right").textContent;
      const expect = (text, what) => shown.includes(text) || wrong.push(`step ${place}: no ${what} ${text}`);
      if ($("count").textContent !== `${place} of ${script.steps.length - 1}`) wrong.push(`step ${place}: ${$("count").textContent}`);
      expect(step.reply, "reply");
      step.effects.forEach(([text]) => expect(text, "line"));
      Object.keys(step.owned).forEach((owner) => expect(owner === "p" ? "The page, p" : `Component ${owner}`, "card"));
      step.events.forEach((event) => event.items.forEach((item) => expect(item.node, "node of a path")));
      press("ArrowDown");
    });
    script.owners.forEach((owner) => {
      press("v");
      const others = script.owners.filter((other) => other !== owner);
      if (others.length && !$("right").textContent.includes(`(hidden from ${owner})`)) wrong.push(`nothing is hidden from ${owner}`);
    });
    told.push({ title: script.title, steps: script.steps.length, wrong });
  });
  return told;
}
