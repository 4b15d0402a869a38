"use strict";
// Vue 2: a template, v-model on inputs, lists with keys, v-if, v-show, modifiers that stop and cancel, and a component.
module.exports = async ({ window, document, show, log, click, settled }) => {
  const Vue = require("vue/dist/vue.common.prod.js");
  Vue.config.productionTip = false;
  Vue.config.devtools = false;
  const root = document.body.appendChild(document.createElement("main"));
  root.appendChild(document.createElement("div")).id = "app";
  root.addEventListener("click", (event) => log("root hears", event.target.tagName, event.defaultPrevented));

  Vue.component("item-line", {
    props: ["item"],
    template: "<li :class=\"{odd: item % 2}\" @click=\"$emit('chosen', item)\"><slot></slot>{{ item }}</li>",
  });
  const app = new Vue({
    el: "#app",
    template: `<section :style="{color: count % 2 ? 'red' : 'blue'}" :data-count="count">
      <button @click="count++">count {{ count }}</button><a href="#" @click.stop.prevent="stopped++">{{ stopped }}</a>
      <ul><item-line v-for="item in items" :key="item" :item="item" @chosen="chosen = $event"><b>no. </b></item-line></ul>
      <p v-if="chosen">chosen {{ chosen }}</p><p v-else>none</p><span v-show="count < 2">shown</span>
      <input v-model="text"><input type="checkbox" v-model="flag"><select v-model="choice"><option>x</option><option>y</option></select>
      <textarea v-model="text"></textarea><div v-html="'<i>' + count + '</i>'"></div><svg><path :d="'M' + count"/></svg></section>`,
    data: { count: 0, stopped: 0, items: [1, 2, 3], chosen: 0, text: "t", flag: true, choice: "y" },
    mounted() { log("mounted"); },
    destroyed() { log("destroyed"); },
  });
  log(show(root));
  for (let round = 0; round < 3; round++) {
    click(root.querySelector("button"));
    click(root.querySelector("a"));
    app.items = round % 2 ? [1, 2, 3, 4] : [3, 5, 1];
    await settled();
    click(root.querySelector("li"));
    const input = root.querySelector("input");
    input.value = `typed ${round}`;
    input.dispatchEvent(new window.Event("input", { bubbles: true }));
    root.querySelectorAll("input")[1].click();
    const select = root.querySelector("select");
    select.value = round % 2 ? "y" : "x";
    select.dispatchEvent(new window.Event("change", { bubbles: true }));
    await settled();
    log(show(root), app.text, app.flag, app.choice);
  }
  app.$destroy();
  app.$el.parentNode.removeChild(app.$el);
  log(show(root));
};
