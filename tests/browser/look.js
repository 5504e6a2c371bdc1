/* What a page is looked at for, as code that runs in it. */
"use strict";

/* No word runs out of its box, no node lies over another, and nothing is wider than the window. A board's side may be scrolled. */
const LAYOUT = `(function () {
  var wrong = [];
  if (document.documentElement.scrollWidth > window.innerWidth) wrong.push("wider than the window: " + document.documentElement.scrollWidth);
  document.querySelectorAll(".stage").forEach(function (stage) {
    var boxes = [].map.call(stage.querySelectorAll(".node"), function (n) { return n.getBoundingClientRect(); }), around = stage.getBoundingClientRect(), scrolls = stage.scrollWidth > stage.clientWidth;
    boxes.forEach(function (a, i) {
      if (!scrolls && (a.left < around.left - 1 || a.right > around.right + 1 || a.bottom > around.bottom + 1)) wrong.push("a node outside of its side");
      boxes.slice(i + 1).forEach(function (b) { if (a.left < b.right && b.left < a.right && a.top < b.bottom && b.top < a.bottom) wrong.push("two nodes overlap"); });
    });
    stage.querySelectorAll(".cell b, .cell .word").forEach(function (b) { if (b.scrollWidth > b.clientWidth + 1) wrong.push("too long for its cell: " + b.textContent); });
  });
  return wrong;
})()`;

/* What can be reached has a name: its own text, a label or an aria-label. */
const NAMES = `(function () {
  function seen(e) { return e.getClientRects().length > 0; }
  return [].filter.call(document.querySelectorAll("button, input, select, textarea, [role=dialog], section, aside"), seen).filter(function (e) {
    var by = e.getAttribute("aria-labelledby"), labels = e.labels ? [].map.call(e.labels, function (l) { return l.textContent; }).join("") : "";
    var text = (e.getAttribute("aria-label") || (by && document.getElementById(by).textContent) || labels || (e.tagName === "BUTTON" ? e.textContent : "")).trim();
    return text === "";
  }).map(function (e) { return e.outerHTML.slice(0, 120); });
})()`;

/* Nodes are tables with a name, of rows and cells; what changes is announced; the moment is said by the slider. */
const ROLES = `(function () {
  var wrong = [];
  document.querySelectorAll(".stage .node:not(.folded):not(.free)").forEach(function (n) {
    if (n.getAttribute("role") !== "table" || !/^node \\d+/.test(n.getAttribute("aria-label"))) wrong.push("a node that is no table: " + n.outerHTML.slice(0, 100));
    n.querySelectorAll(".line").forEach(function (l) { if (l.getAttribute("role") !== "row" || l.querySelectorAll("[role=cell]").length !== 4) wrong.push("a line that is no row of cells"); });
  });
  if (!document.getElementById("order").getAttribute("aria-valuetext")) wrong.push("the slider says no moment");
  ["now", "verdict"].forEach(function (id) { if (document.getElementById(id).getAttribute("aria-live") !== "polite") wrong.push(id + " is not announced"); });
  return wrong;
})()`;

/* What a finger hits is at least 24 px wide and high, as it is seen. */
const TARGETS = `(function () {
  return [].filter.call(document.querySelectorAll("button, select, input[type=checkbox], .file"), function (e) { return e.getClientRects().length > 0; }).map(function (e) {
    var r = e.getBoundingClientRect();
    return r.width < 23.5 || r.height < 23.5 ? (e.id || e.className || e.textContent).slice(0, 40) + ": " + r.width.toFixed(1) + " x " + r.height.toFixed(1) : null;
  }).filter(Boolean).slice(0, 6);
})()`;

/* The size of a key as it is seen. */
const KEY_SIZE = `(function () {
  var b = document.querySelector("#working-stage .cell .key"), r = b.getBoundingClientRect();
  return parseFloat(getComputedStyle(b).fontSize) * r.width / b.offsetWidth;
})()`;

/* Texts whose contrast with what is behind them is under 4.5, or under 3 if they are large. What is switched off need not be read. */
const CONTRAST = `(function () {
  function rgb(text) { var m = /rgba?\\(([^)]+)\\)/.exec(text), p = m ? m[1].split(/[ ,/]+/).map(Number) : [0, 0, 0, 0]; return p.length < 4 ? p.concat(1) : p; }
  function light(c) { return [0.2126, 0.7152, 0.0722].reduce(function (sum, w, i) { var v = c[i] / 255; return sum + w * (v <= 0.04045 ? v / 12.92 : Math.pow((v + 0.055) / 1.055, 2.4)); }, 0); }
  function behind(e) {
    for (; e; e = e.parentElement) { var c = rgb(getComputedStyle(e).backgroundColor); if (c[3] > 0.99) return c; }
    return [255, 255, 255, 1];
  }
  var low = {};
  [].forEach.call(document.querySelectorAll("body *"), function (e) {
    var own = [].some.call(e.childNodes, function (n) { return n.nodeType === 3 && n.textContent.trim(); });
    if (!own || /SCRIPT|STYLE|OPTION|NOSCRIPT/.test(e.tagName) || e.closest(":disabled") || !e.getClientRects().length) return;
    var s = getComputedStyle(e), a = light(rgb(s.color)), b = light(behind(e)), ratio = (Math.max(a, b) + 0.05) / (Math.min(a, b) + 0.05);
    var size = parseFloat(s.fontSize), large = size >= 24 || (size >= 18.6 && Number(s.fontWeight) >= 700);
    if (s.visibility !== "hidden" && ratio < (large ? 3 : 4.5)) low[e.tagName + "." + e.className + " " + s.color + " on " + behind(e).join(",") + " " + ratio.toFixed(2) + ": " + e.textContent.trim().slice(0, 20)] = true;
  });
  return Object.keys(low);
})()`;

module.exports = { CONTRAST, KEY_SIZE, LAYOUT, NAMES, ROLES, TARGETS };
