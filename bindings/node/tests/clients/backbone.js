"use strict";
// Backbone 1.4 with jQuery: models, a collection, views with delegated events that stop and cancel.
module.exports = async ({ window, document, show, log, click }) => {
  const Backbone = require("backbone");
  Backbone.$ = require("jquery/dist/jquery.js");
  const Item = Backbone.View.extend({
    tagName: "li",
    className: "item",
    events: { "click b": "rename", "click a": "end", "click": (event) => log("item hears", event.target.tagName) },
    initialize() {
      this.listenTo(this.model, "change", this.render);
      this.listenTo(this.model, "destroy", this.remove);
    },
    rename() { this.model.set("name", `${this.model.get("name")}!`); },
    end(event) {
      event.preventDefault();
      event.stopPropagation();
      this.model.trigger("destroy", this.model, this.model.collection);
    },
    render() {
      this.$el.html(`<b>${this.model.get("name")}</b><a href='#'>x</a>`).toggleClass("long", this.model.get("name").length > 4);
      return this;
    },
  });
  const List = Backbone.View.extend({
    attributes: { "data-view": "list" },
    events: { "click button": () => log("button") },
    initialize() { this.listenTo(this.collection, "add", (model) => this.$("ul").append(new Item({ model }).render().el)); },
    render() {
      this.el.innerHTML = "<button>b</button><ul></ul>";
      this.collection.each((model) => this.$("ul").append(new Item({ model }).render().el));
      return this;
    },
  });
  const collection = new Backbone.Collection([{ name: "one" }, { name: "two" }]);
  const view = new List({ collection, id: "list" });
  document.body.appendChild(view.render().el);
  view.el.addEventListener("click", (event) => log("view hears", event.target.tagName, event.defaultPrevented));
  log(show(view.el));
  collection.add({ name: "three" });
  for (const selector of ["button", "b", "li:last-child b", "a"]) {
    click(view.el.querySelector(selector));
    log(show(view.el));
  }
  view.undelegateEvents();
  click(view.el.querySelector("button"));
  view.remove();
  log(show(document.body), collection.length, window.document === document);
};
