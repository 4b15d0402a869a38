"use strict";
// Preact 8: a list with keys that is turned round, a counter, a form, and clicks that stop and cancel.
module.exports = async ({ document, show, log, click, settled }) => {
  const { h, render, Component } = require("preact");

  class Counter extends Component {
    constructor() {
      super();
      this.state = { count: 0, reversed: false };
    }
    componentDidMount() { log("mounted"); }
    componentWillUnmount() { log("unmounted"); }
    render(props, { count, reversed }) {
      const items = ["a", "b", "c", "d"].slice(0, 4 - (count % 3));
      return h("section", { class: count ? "some" : "none", id: "counter", title: `t${count}`, style: { color: "red", paddingTop: 4 } },
        h("button", { onClick: () => this.setState({ count: count + 1 }) }, "count ", count),
        h("a", { href: "#x", onClick: (event) => { event.preventDefault(); event.stopPropagation(); this.setState({ reversed: !reversed }); } }, "turn"),
        h("ul", { onClick: (event) => log("ul hears", event.target.nodeName) }, (reversed ? items.reverse() : items).map((item) => h("li", { key: item },
          item))),
        count % 2 ? h("input", { type: "checkbox", checked: true, value: `v${count}` }) : h("textarea", { value: "text" }),
        h("div", { dangerouslySetInnerHTML: { __html: `<b>bold ${count}</b><!--c-->` } }),
        h("svg", { viewBox: "0 0 10 10" }, h("circle", { r: count, "xlink:href": "#a" })));
    }
  }

  const root = document.body.appendChild(document.createElement("main"));
  root.addEventListener("click", (event) => log("root hears", event.target.nodeName, event.eventPhase, event.defaultPrevented));
  const made = render(h(Counter), root);
  log(show(root));
  for (let round = 0; round < 3; round++) {
    click(root.querySelector("button"));
    await settled();
    log(show(root));
    click(root.querySelector("a"));
    await settled();
    log(show(root));
    click(root.querySelector("li"));
  }
  render(h(() => null), root, made);
  await settled();
  log(show(root));
};
