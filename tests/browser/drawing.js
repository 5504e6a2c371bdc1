/* A drawing of samples/drawings, made on the board by taps alone, in any browser that can open, run, wait and tap. */
"use strict";
const assert = require("assert");
const fs = require("fs");
const path = require("path");

const MISTAKES = { "key-before-pointer": "shift order", "one-movement": "one movement", "flush-at-the-end": "flush at the end", "linked-before-flush": "linked before flushed",
  "sibling-by-first-key": "first key", "hidden-by-equal-keys": "equal keys", "search-tidies": "a search that tidies" };

async function chooseTask(b, change) {
  const index = await b.run(`window.board.tasks.findIndex(function (t) { return t.change.sign + " " + t.change.code === ${JSON.stringify(change)}; })`);
  assert(index >= 0, "no task " + change);
  /* A select is opened by the system: its choice is made as a finger makes it there. */
  await b.run(`(function () { var s = document.getElementById("task"); s.value = "${index}"; s.dispatchEvent(new Event("change")); })()`);
  await b.until('window.board.orders().length === 0 && window.film.state.order === 0 && document.querySelectorAll("#working-stage .word").length > 0');
}

async function tapOrder(b, order, count) {
  if (order[0] === "flush") await b.tap('#working-stage [data-flush="' + order[1] + '"]');
  else {
    if (!(await b.run(`Boolean(document.querySelector('#working-stage [data-word="${order[1]}"]'))`))) {
      const node = Math.floor((order[1] - 8) / 32) + 1;
      await b.tap('[data-use="' + node + '"]');
      await b.until(`Boolean(document.querySelector('#working-stage [data-word="${order[1]}"]'))`);
    }
    await b.tap('#working-stage [data-word="' + order[1] + '"]');
    await b.until('!document.getElementById("chooser").hidden');
    await b.tap('#chooser-values [data-value="' + order[2] + '"]');
  }
  await b.until("window.board.orders().length === " + count + " && window.film.state.order === " + count);
}

/* The drawings of a folder. */
class Drawings {
  constructor(folder) { this.folder = folder; }

  drawing(name) {
    const text = fs.readFileSync(path.join(this.folder, name + ".txt"), "utf8"), lines = text.split("\n").filter((l) => l && l[0] !== "#").map((l) => l.split(/\s+/));
    return { orders: lines, change: /# catalogue judge \w+\.cat \S+ ([+-] \w+)/.exec(text)[1], no: /# no: after (\d+) of/.exec(text) };
  }

  async draw(b, name) {
    const d = this.drawing(name);
    await chooseTask(b, d.change);
    for (let i = 0; i < d.orders.length; i++) await tapOrder(b, d.orders[i], i + 1);
    const drawn = await b.run("window.board.orders().map(function (o) { return o.join(' '); })");
    assert.deepStrictEqual(drawn, d.orders.map((o) => o.slice(0, o[0] === "store" ? 3 : 2).join(" ")), name);
    await b.tap("#judge");
    const said = await b.run('(function () { var p = document.querySelector("#verdict [data-judge]"); return p && { judge: p.dataset.judge, count: p.dataset.count, mistake: p.dataset.mistake }; })()');
    assert(said, "no verdict of " + name);
    assert.strictEqual(said.judge, d.no ? "no" : "yes", name);
    if (d.no) assert.deepStrictEqual([said.count, said.mistake], [d.no[1], MISTAKES[name]], name);
    return { count: d.orders.length, said, took: Number(await b.run('document.getElementById("verdict").dataset.took')) };
  }
}

module.exports = { MISTAKES, Drawings, chooseTask, tapOrder };
