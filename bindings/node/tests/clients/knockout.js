"use strict";
// Knockout 3: bindings of text, html, css, style, attr, foreach, if, comments as containers, checked, value, options, and clicks that stop and cancel.
module.exports = async ({ window, document, show, log, click, settled }) => {
  const ko = require("knockout");
  const root = document.body.appendChild(document.createElement("main"));
  root.innerHTML = `<h1 data-bind="text: title, css: { big: count() > 1 }, attr: { title: 't' + count() }, style: { color: count() % 2 ? 'red' : 'blue' }"></h1>
    <button data-bind="click: more, enable: count() < 9">more</button><a href="#" data-bind="click: stop, clickBubble: false">stop</a>
    <ul data-bind="foreach: items"><li data-bind="text: $data, click: $parent.remove"></li></ul>
    <!-- ko if: count() % 2 --><p>odd</p><!-- /ko --><!-- ko foreach: items --><b data-bind="text: $index"></b><!-- /ko -->
    <input data-bind="value: title, valueUpdate: 'input'"><input type="checkbox" data-bind="checked: flag">
    <select data-bind="options: items, value: choice"></select><div data-bind="html: '<i>' + count() + '</i>'"></div>`;
  root.addEventListener("click", (event) => log("root hears", event.target.tagName, event.defaultPrevented));
  const model = {
    title: ko.observable("start"), count: ko.observable(0), items: ko.observableArray(["a", "b", "c"]), flag: ko.observable(true), choice: ko.observable("b"),
    more() { model.count(model.count() + 1); return true; },
    stop() { log("stop"); },
    remove(item) { model.items.remove(item); },
  };
  ko.applyBindings(model, root);
  log(show(root));
  for (let round = 0; round < 3; round++) {
    click(root.querySelector("button"));
    click(root.querySelector("a"));
    model.items.push(`n${round}`);
    model.items.reverse();
    if (round === 1) click(root.querySelector("li"));
    const input = root.querySelector("input");
    input.value = `typed ${round}`;
    input.dispatchEvent(new window.Event("input", { bubbles: true }));
    root.querySelectorAll("input")[1].click();
    const select = root.querySelector("select");
    select.value = select.options[0].value;
    select.dispatchEvent(new window.Event("change", { bubbles: true }));
    await settled();
    log(show(root), model.title(), model.flag(), model.choice());
  }
  ko.cleanNode(root);
  click(root.querySelector("button"));
  root.innerHTML = "";
  log(show(root), model.count());
};
