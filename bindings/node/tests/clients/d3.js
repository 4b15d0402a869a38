"use strict";
// d3-selection 1.4: joins of data, attributes with namespaces, classes, styles, properties, order, events that stop and cancel.
module.exports = async ({ window, document, show, log, click }) => {
  const d3 = require("d3-selection");
  const root = document.body.appendChild(document.createElement("main"));
  d3.select(root).on("click", () => log("root hears", d3.event.target.tagName, d3.event.defaultPrevented));
  const svg = d3.select(root).append("svg").attr("width", 10).attr("xlink:href", "#a").style("color", "red", "important");
  const list = d3.select("main").append("ul").classed("a b", true).property("hidden", true).html("<li>0</li>");

  function update(data) {
    const circles = svg.selectAll("circle").data(data, (item) => item);
    circles.exit().remove();
    circles.enter().append("circle").merge(circles).attr("r", (item) => item).classed("even", (item) => item % 2 === 0).order();
    const items = list.selectAll("li").data(data);
    items.exit().remove();
    items.enter().insert("li", ":first-child").merge(items).text((item, at) => `${at}: ${item}`)
      .on("click.one", (item) => { d3.event.preventDefault(); log("item", item); })
      .on("click.two", (item) => { if (item === 2) d3.event.stopPropagation(); });
  }

  for (const data of [[1, 2, 3], [3, 4], [2, 3, 4, 5], []]) {
    update(data);
    log(show(root));
    list.selectAll("li").each(function () { click(this); });
  }
  const copy = list.clone(true).attr("class", null).lower();
  list.classed("a", false).style("display", "none").raise();
  log(copy.empty(), list.style("display"), list.attr("class"), d3.select(root).select("svg").attr("width"), d3.selectAll("circle").size());
  list.dispatch("made", { bubbles: true, cancelable: true, detail: { a: 1 } });
  d3.select(root).on("made", () => log("made", d3.event.detail, d3.event.type));
  log(list.dispatch("made", { bubbles: true, cancelable: true, detail: { a: 2 } }).size());
  d3.select(root).selectAll("*").remove();
  log(show(root), d3.window(root) === window);
};
