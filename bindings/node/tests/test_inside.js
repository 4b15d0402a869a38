"use strict";
// Programs that nobody here wrote inside a component, each in a context of its own: they mount, are clicked, and unmount. The page is told what is
// composed, and nothing else.
const test = require("node:test");
const assert = require("node:assert");
const fs = require("node:fs");
const { page, without } = require("./support");
const { contextOf, run } = require("../context");

/** A component in a page, with a context in which files have been run. */
function component(...files) {
  const { document, window } = page("<x-box></x-box>");
  const root = document.querySelector("x-box").attachShadow({ mode: "closed" });
  const context = contextOf(root.ownerDocument);
  for (const file of files) run(context, fs.readFileSync(require.resolve(file), "utf8"), file);
  const told = [];
  for (const type of ["click", "input", "change"]) document.addEventListener(type, (event) => told.push([type, event.target.nodeName]), true);
  const observer = new window.MutationObserver(() => {});
  observer.observe(document, { childList: true, subtree: true, attributes: true, characterData: true });
  return { document, root, context, told, observer };
}

async function until(holds) {
  while (!holds()) await new Promise((resolve) => setTimeout(resolve, 5));
}

const REACT = ["/usr/share/nodejs/react/umd/react.production.min.js", "/usr/share/nodejs/react-dom/umd/react-dom.production.min.js"];

test("React in a component", { skip: without(...REACT) }, async () => {
  const { root, context, told, observer, document } = component(...REACT);
  const mount = run(context, `(root) => {
    function App() {
      const [count, setCount] = React.useState(0);
      return React.createElement("button", { onClick: () => setCount((before) => before + 1), className: "c" + count }, "count ", count);
    }
    const made = ReactDOM.createRoot(root);
    made.render(React.createElement(App));
    return made;
  }`);
  const made = mount(root);
  await until(() => root.innerHTML === "<button class=\"c0\">count 0</button>");
  root.firstChild.dispatchEvent(new root.ownerDocument.defaultView.MouseEvent("click", { bubbles: true }));
  await until(() => root.innerHTML === "<button class=\"c1\">count 1</button>");
  made.unmount();
  await until(() => root.innerHTML === "");
  assert.deepStrictEqual([told, observer.takeRecords().length, document.body.innerHTML], [[], 0, "<x-box></x-box>"]);
});

test("jQuery in a component", { skip: without("jquery/dist/jquery.js") }, () => {
  const { root, context, told, observer, document } = component("jquery/dist/jquery.js");
  const pressed = run(context, `(root) => {
    const told = [];
    const div = $("<div>").appendTo(root); // in a root itself jQuery fails to search, here and in jsdom
    div.append("<ul><li class='a'>one</li><li>two</li></ul>").on("click", "li", function () { told.push($(this).text()); });
    $("li", div).addClass("b").last().attr("title", "t").trigger("click");
    return told;
  }`)(root);
  assert.strictEqual(root.innerHTML, "<div><ul><li class=\"a b\">one</li><li class=\"b\" title=\"t\">two</li></ul></div>");
  assert.deepStrictEqual([...pressed], ["two"]);
  // `trigger` calls click(), whose event is composed: the page hears it as the host's
  assert.deepStrictEqual([told, observer.takeRecords().length, document.querySelector("li")], [[["click", "X-BOX"]], 0, null]);
});
