/* The drawing board in a browser, by a finger's taps alone: board.js BROWSER FOLDER PICTURES DRAWINGS. Draws the right lists and every known mistake, each word and
 * each flush tapped, at the sizes of a tablet both ways and of a projector, and reads what is judged. The last line is 'N passed, 0 failed'. */
"use strict";
const assert = require("assert");
const fs = require("fs");
const path = require("path");
const { Browser } = require("./browser.js");
const { MISTAKES, Drawings, chooseTask, tapOrder } = require("./drawing.js");
const look = require("./look.js");

const [browser, folder, pictures, drawings] = process.argv.slice(2);
const SIZES = { tablet: [1024, 768], upright: [768, 1024], projector: [1280, 800] };
const drawn = new Drawings(drawings);
let passed = 0;
function done(what) { passed++; console.log(what); }

/* A picture to be looked at. */
async function keep(b, name) {
  b.pictures = folder;
  await b.picture(name);
}

async function rightLists(b) {
  for (const [size, [width, height]] of Object.entries(SIZES)) {
    await b.screen(width, height, true);
    /* The right insertion is the library's. */
    const own = await b.run('window.board.live.ours(window.board.tasks[0].table, window.board.tasks[0].change, false).then(function (a) { return window.board.live.board(window.board.tasks[0].table, window.board.tasks[0].change, a.text); }).then(function (a) { return JSON.parse(a.text).scene.orders; })');
    await chooseTask(b, await b.run('window.board.tasks[0].change.sign + " " + window.board.tasks[0].change.code'));
    for (let i = 0; i < own.length; i++) await tapOrder(b, own[i].map(String), i + 1);
    await b.tap("#judge");
    assert.strictEqual(await b.run('document.querySelector("#verdict [data-judge]").dataset.judge'), "yes", size);
    await keep(b, "board-leaf-" + size + ".png");
    const split = await drawn.draw(b, "right");
    assert.deepStrictEqual(await b.run(look.LAYOUT), [], size);
    await keep(b, "board-split-" + size + ".png");
    done(`${size}, ${width} x ${height}: an insertion of ${own.length} orders and a split of ${split.count}, by taps, are right`);
  }
}

async function forReadme(b) {
  await b.screen(...SIZES.projector, false);
  await new Promise((resolve) => setTimeout(resolve, 300));
  b.pictures = pictures;
  await b.picture("board.png");
  await b.screen(...SIZES.tablet, true);
}

async function mistakes(b) {
  await b.screen(...SIZES.tablet, true);
  for (const name of Object.keys(MISTAKES)) {
    const { count, said, took } = await drawn.draw(b, name);
    await b.tap('[data-board="compare"]');
    await b.until('document.querySelectorAll("#lists .list").length === 2');
    const odd = await b.run('document.querySelectorAll("#lists .odd").length'), right = await b.run("window.film.data.scenes[window.film.data.scenes.length - 1].judge");
    assert(odd > 0 && odd <= 16 && right === -1, name + ": " + odd + " orders are marked");
    await keep(b, "board-" + name + ".png");
    await b.tap('#verdict [data-go="bad"]');
    assert((await b.run("window.film.state.order")) === Number(said.count), name);
    if (name === "one-movement") await forReadme(b);
    done(`${name}, ${count} orders by taps: no after ${said.count}, ${said.mistake}; ${odd} orders marked beside the nearest right list; the last call ${took} ms`);
  }
}

async function tools(b) {
  await b.screen(...SIZES.tablet, true);
  await chooseTask(b, "+ AA0002600010");
  await tapOrder(b, ["store", "23", "104"], 1);
  await tapOrder(b, ["store", "22", "172627202600040"], 2);
  await b.tap("#earlier");
  await b.until('window.board.orders()[0][1] === 22');
  await b.tap("#undo");
  await b.until('window.board.orders()[0][1] === 23');
  await b.tap("#redo");
  await b.until('window.board.orders()[0][1] === 22');
  await b.tap("#drop");
  await b.until("window.board.orders().length === 1");
  await b.tap("#text-open");
  await b.type("#list-text", "node 1 slot 3 pointer := 104\nNode 1, slot 3, key = AA0002600040\nflush n1 s0-3");
  await b.tap("#text-take");
  await b.until("window.board.orders().length === 3");
  await b.type("#list-text", "node 1 slot 12 key := 0");
  await b.tap("#text-take");
  await b.until('/"12" cannot stand there/.test(document.getElementById("text-said").textContent)');
  assert.strictEqual(await b.run("window.board.orders().length"), 3);
  await b.tap("#text-open");
  done("earlier, undo, redo, remove, as text, a wrong line named");
  await b.tap("#board-guess");
  const hidden = await b.run('[document.querySelectorAll(".tag").length, document.querySelectorAll("#verdict [data-judge]").length, /guess/i.test(document.getElementById("verdict").textContent)]');
  assert.deepStrictEqual(hidden, [0, 0, true]);
  await b.tap("#judge");
  assert.strictEqual(await b.run('document.querySelectorAll("#verdict [data-judge]").length'), 1);
  await b.tap("#board-guess");
  done("guess first: verdicts wait until asked");
}

async function ownTable(b) {
  await b.run('(function () { var s = document.getElementById("task"); s.value = "own"; s.dispatchEvent(new Event("change")); })()');
  await b.type("#own-codes", "code,recording\nXK-A04-74-00001,1\nXK-A04-74-00005,5\n");
  await b.type("#own-code", "XKA047400003");
  await b.type("#own-recording", "3");
  await b.tap("#own-use");
  await b.until('window.board.tasks[window.board.tasks.length - 1].name === "own" && window.board.orders().length === 0 && document.querySelectorAll("#working-stage .word").length > 0');
  assert(/XKA047400003/.test(await b.run('document.getElementById("task").selectedOptions[0].textContent')));
  await b.tap('#working-stage [data-word="21"]');
  await b.until('!document.getElementById("chooser").hidden');
  await b.tap("#chooser-close");
  done("a table of one's own");
}

/* The time of a call in the page, of the list whole: the best of ten. */
async function times(b) {
  const took = {};
  for (const name of ["key-before-pointer", "right", "flush-at-the-end"]) {
    const text = fs.readFileSync(path.join(drawings, name + ".txt"), "utf8"), change = drawn.drawing(name).change;
    took[name] = await b.run(`(async function () {
      var t = window.board.tasks.find(function (t) { return t.change.sign + " " + t.change.code === ${JSON.stringify(change)}; }), best = {};
      for (var what of ["judge", "board", "compare"]) {
        best[what] = 1e9;
        for (var i = 0; i < 10; i++) { var began = performance.now(); await window.board.live[what](t.table, t.change, ${JSON.stringify(text)}); best[what] = Math.min(best[what], performance.now() - began); }
      }
      return best;
    })()`);
  }
  const text = Object.entries(took).map(([n, t]) => `${n}: judge ${t.judge.toFixed(1)}, film and judge ${t.board.toFixed(1)}, nearest ${t.compare.toFixed(1)} ms`).join("; ");
  assert(took["key-before-pointer"].judge < 50 && took.right.judge < 300, text);
  done(text);
}

async function main() {
  const b = new Browser(browser, folder, pictures);
  try {
    await b.open("file://" + path.join(folder, "lesson.html"));
    await b.until("Boolean(window.board)");
    await b.screen(...SIZES.tablet, true);
    await b.tap("#to-board");
    await b.until('document.body.classList.contains("board") && document.querySelectorAll("#working-stage .word").length > 0');
    await rightLists(b);
    await mistakes(b);
    await tools(b);
    await ownTable(b);
    await times(b);
    const wrong = b.heard.filter((m) => m.method === "Runtime.exceptionThrown" || (m.method === "Log.entryAdded" && m.params.entry.level === "error"));
    assert.deepStrictEqual(wrong, []);
    const asked = b.heard.filter((m) => m.method === "Network.requestWillBeSent").map((m) => m.params.request.url).filter((url) => !url.startsWith("file:"));
    assert.deepStrictEqual(asked, [], "the page asks a network");
    const bytes = fs.statSync(path.join(folder, "lesson.html")).size;
    assert(bytes < 700000, bytes + " bytes");
    done("no error, nothing asked of a network; the lesson has " + bytes + " bytes");
    console.log(passed + " passed, 0 failed");
  } finally {
    await b.close();
  }
}

main().catch((error) => { console.error(error); process.exit(1); });
