"use strict";
// jQuery 3: building, traversal, selectors of its own and of the document, attributes, properties, values, delegated events that stop and cancel, data.
module.exports = async ({ window, document, show, log, click, settled }) => {
  const $ = require("jquery/dist/jquery.js");
  const root = document.body.appendChild(document.createElement("main"));
  const $root = $(root);
  $root.html("<ul><li class='a'>one</li><li>two <b>bold</b></li><li title='t'>three</li></ul><p>after</p><form>" +
    "<input name='x' value='1'><select name='s'><option value='p'>" +
    "<option value='q' selected></select><textarea name='t'>words</textarea></form>");
  log(show(root));
  $root.on("click", "li", function (event) { log("delegated", $(this).index(), event.target.tagName, event.isDefaultPrevented()); });
  $root.find("b").on("click", (event) => event.preventDefault());
  $root.find("li").eq(2).on("click", () => false);
  $root.one("click", (event) => log("once", event.type));
  root.querySelectorAll("li, b").forEach((node) => click(node));
  log($root.find("li:nth-child(2)").text(), $root.find("li:first").text(), $("li:has(b)", root).length, $("li[title]").attr("title"),
    $root.find(":input").length);
  log($root.find("form").serialize(), $root.find("select").val(), $("textarea").val("changed").val(), $root.find("li:not(.a)").length,
    $("ul > li:last").text());
  $("li").first().addClass("x y").removeClass("a").toggleClass("z").after("<li>new</li>").before($("<li/>", { text: "made", id: "made" }));
  $("#made").css({ color: "red", "margin-top": 3 }).data("key", { deep: 1 }).attr("data-n", 5).prop("hidden", true).wrap("<div class='w'></div>");
  log(show(root), $("#made").data("key"), $("#made").data("n"), $("li").map((at, node) => node.textContent).get(), $("#made").closest("ul").length);
  $("b").unwrap().replaceWith("<i>italic</i>text");
  $("ul").append($("p"), "<!--c-->").children().last().clone(true).appendTo(root);
  log(show(root), $("ul").children().length, $("ul").contents().length, $("i").parents().length, $("i").is("i, b"), $("p").next().length);
  $root.trigger("made", [1, 2]);
  $root.on("made.space", (event, one, two) => log("made", event.namespace, one, two)).trigger("made", [1, 2]).off(".space").trigger("made", [3]);
  $("li").slice(1, 3).detach().prependTo($root);
  $("input").prop("checked", true).val("new").trigger("focus");
  await settled();
  log(show(root));
  $root.empty().remove();
  log(show(root), root.parentNode === null, window.document === document);
};
