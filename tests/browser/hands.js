/* What hands do with the page: hands.js BROWSER FOLDER. A finger's swipe over a drawing, a list that is saved and opened again, a table from a file, and addresses that
 * were shared before, and a page of an older version. The last line is 'N passed, 0 failed'. */
"use strict";
const assert = require("assert");
const fs = require("fs");
const path = require("path");
const zlib = require("zlib");
const { Browser } = require("./browser.js");
const { chooseTask, tapOrder } = require("./drawing.js");

const [browser, folder] = process.argv.slice(2);
let passed = 0;
function done(what) { passed++; console.log(what); }

/* A finger goes from the middle of an element so far. */
async function swipe(b, selector, x, y) {
  const from = await b.run(`(function () {
    var e = document.querySelector(${JSON.stringify(selector)});
    e.scrollIntoView({ block: "center" });
    var r = e.getBoundingClientRect();
    return [r.x + r.width / 2, Math.max(r.y, 0) + Math.min(r.height, window.innerHeight - r.y) / 2];
  })()`);
  await b.send("Input.dispatchTouchEvent", { type: "touchStart", touchPoints: [{ x: from[0], y: from[1] }] });
  for (const part of [0.25, 0.5, 0.75, 1]) await b.send("Input.dispatchTouchEvent", { type: "touchMove", touchPoints: [{ x: from[0] + part * x, y: from[1] + part * y }] });
  await b.send("Input.dispatchTouchEvent", { type: "touchEnd", touchPoints: [] });
}

async function swipes(b) {
  await b.run("window.film.go(5)");
  const at = () => b.run("window.film.state.order");
  await swipe(b, "#working-stage", -150, 0);
  await b.until("window.film.state.order === 6");
  await swipe(b, "#memory-stage", 150, 10);
  await b.until("window.film.state.order === 5");
  /* A short one, and one that goes down the page, are none. */
  await swipe(b, "#working-stage", -30, 0);
  await swipe(b, "#working-stage", 70, -150);
  await b.run("new Promise(function (r) { setTimeout(r, 200); })");
  assert.strictEqual(await at(), 5);
  await b.run("window.film.go(0)");
  await swipe(b, "#working-stage", 150, 0);
  await b.run("new Promise(function (r) { setTimeout(r, 200); })");
  assert.strictEqual(await at(), 0);
  done("a swipe goes one order on or back, over either drawing; a short one or one down the page does not");
}

async function inFile(b, selector, file) {
  const { root } = await b.send("DOM.getDocument");
  const { nodeId } = await b.send("DOM.querySelector", { nodeId: root.nodeId, selector });
  await b.send("DOM.setFileInputFiles", { nodeId, files: [file] });
}

async function savesAndOpens(b) {
  const saved = path.join(folder, "saved");
  fs.mkdirSync(saved);
  await b.send("Browser.setDownloadBehavior", { behavior: "allow", downloadPath: saved });
  await b.tap("#to-board");
  await b.until('document.body.classList.contains("board") && document.querySelectorAll("#working-stage .word").length > 0');
  await chooseTask(b, "+ AA0002600010");
  const orders = [["store", "23", "104"], ["store", "22", "172627202600040"], ["flush", "2"]];
  for (let i = 0; i < orders.length; i++) await tapOrder(b, orders[i], i + 1);
  await b.tap("#save");
  const file = path.join(saved, "drawing.txt");
  for (let i = 0; i < 100 && !fs.existsSync(file); i++) await new Promise((resolve) => setTimeout(resolve, 50));
  const text = fs.readFileSync(file, "utf8");
  assert(/^# catalogue judge \S+\.cat drawing\.txt \+ AA0002600010 \d+$/m.test(text) && /^# table /m.test(text), text);
  assert.strictEqual(text.split("\n").filter((l) => l && l[0] !== "#").length, 3, text);
  await b.tap("#undo");
  await b.tap("#undo");
  await b.until("window.board.orders().length === 1");
  await inFile(b, "#open-list", file);
  await b.until("window.board.orders().length === 3");
  assert.deepStrictEqual(await b.run("window.board.orders().map(function (o) { return o.join(' '); })"), orders.map((o) => o.join(" ")));
  done("a list is saved with its table and its change, and opens as it was");
  /* Another class opens it beside another table: it comes with its own. */
  const other = path.join(folder, "other.txt");
  fs.writeFileSync(other, text.replace(/^# table .*$/m, "# table AA0002600001,7"));
  await inFile(b, "#open-list", other);
  await b.until('document.getElementById("own-codes").value.indexOf("AA0002600001,7") >= 0 && window.board.orders().length === 3');
  assert.strictEqual(await b.run('document.getElementById("task").selectedOptions[0].textContent.indexOf("AA0002600010") >= 0'), true);
  done("a list of another table opens with that table");
  const csv = path.join(folder, "own.csv");
  fs.writeFileSync(csv, "code,recording\nXK-A04-74-00001,1\nXK-A04-74-00005,5\n");
  await b.run('(function () { var s = document.getElementById("task"); s.value = "own"; s.dispatchEvent(new Event("change")); })()');
  await inFile(b, "#own-file", csv);
  await b.until('document.getElementById("own-codes").value.indexOf("XK-A04-74-00005,5") >= 0');
  done("a table from a file");
}

/* Addresses as lessons have had them since pages were first made: scene, order, code, and a cut's choices by line. */
async function addresses(b) {
  for (const [hash, scene, order] of [["#scene=1&order=77&code=%2390", 0, 77], ["#scene=5&order=5&code=AA0002600040", 4, 5], ["#scene=1&order=82&cut=2:1", 0, 82], ["#order=3", 0, 3]]) {
    await b.send("Page.navigate", { url: "about:blank" });
    await b.send("Page.navigate", { url: "file://" + path.join(folder, "lesson.html") + hash });
    await b.until('document.readyState === "complete" && Boolean(window.film)');
    await b.until(`window.film.state.scene === ${scene} && window.film.state.order === ${order}`);
    assert.strictEqual(await b.run('document.getElementById("code").value'), (/code=([^&]*)/.exec(hash) || ["", ""])[1].replace("%23", "#"), hash);
  }
  done("addresses lead to their scene, order and code");
}

/* A page has its own script inside: one of an older version is as it was. This one is the lesson of version 0.14, from before the board. */
async function olderPage(b) {
  const page = path.join(folder, "lesson-0.14.html");
  fs.writeFileSync(page, zlib.gunzipSync(fs.readFileSync(path.join(__dirname, "pages", "lesson-0.14.html.gz"))));
  await b.send("Page.navigate", { url: "file://" + page + "#scene=1&order=0" });
  await b.until('document.readyState === "complete" && Boolean(window.film) && !window.board');
  const looks = new Set();
  for (let c = 0; c <= 88; c++) {
    await b.run("window.film.go(" + c + ")");
    assert((await b.text("now")).startsWith("Order " + c + " of 88"), await b.text("now"));
    looks.add(await b.run('document.getElementById("working-stage").innerHTML'));
  }
  assert.strictEqual(looks.size, 89, "moments that look alike");
  await b.run("window.film.go(82)");
  await b.click("#cut button:nth-of-type(4)");
  assert(/leftover \(c\)/.test(await b.text("memory-said")), await b.text("memory-said"));
  done("the lesson of version 0.14 opens: 89 moments, and a cut");
}

async function main() {
  const b = new Browser(browser, folder, folder);
  try {
    await b.open("file://" + path.join(folder, "lesson.html"));
    await b.until("Boolean(window.board)");
    await b.screen(1024, 768, true);
    await swipes(b);
    await addresses(b);
    await b.until("Boolean(window.board)");
    await savesAndOpens(b);
    await olderPage(b);
    const wrong = b.heard.filter((m) => m.method === "Runtime.exceptionThrown" || (m.method === "Log.entryAdded" && m.params.entry.level === "error"));
    assert.deepStrictEqual(wrong, []);
    console.log(passed + " passed, 0 failed");
  } finally {
    await b.close();
  }
}

main().catch((error) => { console.error(error); process.exit(1); });
