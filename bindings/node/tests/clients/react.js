"use strict";
// React 18: state, keys, portals, controlled inputs, SVG, an error boundary, and clicks that stop and cancel.
module.exports = async ({ window, document, show, log, click, settled }) => {
  const React = require("react");
  const { createRoot } = require("react-dom/client");
  const { createPortal } = require("react-dom");
  const h = React.createElement;
  const aside = document.body.appendChild(document.createElement("aside"));

  /** Change an input as a user does: past the value that React has set, and then by an event. */
  function type(input, property, value, event) {
    Object.getOwnPropertyDescriptor(Object.getPrototypeOf(input), property).set.call(input, value);
    input.dispatchEvent(new window.Event(event, { bubbles: true }));
  }

  class Boundary extends React.Component {
    constructor(props) {
      super(props);
      this.state = { message: null };
    }
    static getDerivedStateFromError(error) { return { message: error.message }; }
    render() { return this.state.message === null ? this.props.children : h("em", null, this.state.message); }
  }

  function Bad({ bad }) {
    if (bad) throw new Error("bad");
    return h("i", null, "good");
  }

  function App() {
    const [count, setCount] = React.useState(0);
    const [text, setText] = React.useState("start");
    const [isChecked, setChecked] = React.useState(false);
    const [choice, setChoice] = React.useState("b");
    const reference = React.useRef(null);
    React.useEffect(() => {
      log("effect", count, reference.current.tagName);
      return () => log("cleanup", count);
    }, [count]);
    const items = ["a", "b", "c"].map((item) => h("li", { key: item, "data-item": item }, item));
    return h("section", { ref: reference, className: `c${count}`, style: { color: count % 2 ? "red" : "blue", width: 10 + count }, hidden: count === 3 },
      h("button", { onClick: () => setCount((before) => before + 1), disabled: count > 8 }, "count ", count),
      h("a", { href: "#", onClick: (event) => { event.preventDefault(); event.stopPropagation(); log("a", event.type, event.nativeEvent.eventPhase); } },
        "link"),
      h("ul", { onClick: (event) => log("ul", event.target.textContent), onClickCapture: () => log("ul capture") }, count % 2 ? items.reverse() : items),
      h("input", { value: text, onChange: (event) => setText(event.target.value.toUpperCase()) }),
      h("input", { type: "checkbox", checked: isChecked, onChange: (event) => setChecked(event.target.checked) }),
      h("select", { value: choice, onChange: (event) => setChoice(event.target.value) }, ["a", "b", "c"].map((each) => h("option", { key: each }, each))),
      h("textarea", { defaultValue: "area" }),
      h("svg", { viewBox: "0 0 1 1" }, h("use", { xlinkHref: "#a" }), h("linearGradient", { id: "g" })),
      h("p", { dangerouslySetInnerHTML: { __html: `<b>${count}</b>` } }),
      h(Boundary, null, h(Bad, { bad: count === 2 })),
      createPortal(h("span", { onClick: () => log("portal", count) }, "portal ", count), aside));
  }

  const container = document.body.appendChild(document.createElement("div"));
  const consoleError = console.error;
  console.error = () => {};
  const root = createRoot(container);
  root.render(h(App));
  await settled();
  log(show(document.body));
  for (let round = 0; round < 3; round++) {
    click(container.querySelector("button"));
    await settled();
    log(show(document.body));
    click(container.querySelector("a"));
    click(container.querySelector("li"));
    click(aside.firstChild);
    const [text, box] = container.querySelectorAll("input");
    type(text, "value", `typed ${round}`, "input");
    await settled();
    box.click();
    await settled();
    type(container.querySelector("select"), "value", "abc"[round], "change");
    await settled();
    log(show(document.body));
  }
  root.unmount();
  await settled();
  log(show(document.body));
  console.error = consoleError;
};
