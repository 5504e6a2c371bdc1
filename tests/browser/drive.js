/* Drives a browser through the lesson's page: drive.js BROWSER FOLDER PICTURES. The browser is spoken to by its debugging pipe, so that keys and clicks are
 * real ones. The last line is 'N passed, 0 failed'. */
"use strict";
const assert = require("assert");
const path = require("path");
const { Browser, WIDTH, HEIGHT } = require("./browser.js");
const { LAYOUT } = require("./look.js");

const [browser, folder, pictures] = process.argv.slice(2);
let passed = 0;

/* ---- what is looked at */

function done(what) { passed++; console.log(what); }

const WORDS = `(function () { var out = {}; document.querySelectorAll("#working-stage [data-word]").forEach(function (b) { out[b.dataset.word] = b.dataset.value; }); return out; })()`;

async function firstLook(b) {
  const box = await b.run('(function () { var r = document.getElementById("order").getBoundingClientRect(); return [r.top, r.bottom, r.width]; })()');
  assert(box[0] > 0 && box[1] < HEIGHT / 3 && box[2] > WIDTH / 2, "the slider is not in sight: " + box);
  assert(/Drag the slider, or press the arrow keys/.test(await b.text("hint")));
  assert.strictEqual(await b.text("now"), "Order 0: before the first order");
  assert(!/88|75/.test(await b.text("told")), "the first question is answered");
  await b.click('[data-go="ask"]');
  assert.strictEqual(await b.text("now"), "Order 0 of 88: before the first order");
  await b.run('document.getElementById("order").focus()');
  done("the slider is in sight at once; the first question is asked and not answered");
}

async function searchAndPicture(b) {
  await b.type("#code", "#90");
  assert(/moves to the sibling, node 3/.test(await b.text("working-said")));
  await b.picture("film-split.png");
  await b.run('(function () { var c = document.getElementById("code"); c.value = ""; c.dispatchEvent(new Event("input")); document.getElementById("order").focus(); })()');
}

async function throughTheSplit(b) {
  const scene = await b.run("JSON.parse(JSON.stringify(window.film.data.scenes[0]))"), words = Object.assign({}, scene.header);
  scene.places.forEach((p) => p.words.forEach((v, i) => { words[8 + 32 * (p.node - 1) + i] = v; }));
  const looks = new Set();
  for (let c = 0; c <= 88; c++) {
    if (c > 0) {
      await b.key("ArrowRight");
      const o = scene.orders[c - 1];
      if (o[0] === "store") words[o[1]] = o[2];
    }
    assert((await b.text("now")).startsWith("Order " + c + " of 88: "));
    const drawn = await b.run(WORDS);
    for (const w of Object.keys(drawn)) assert.strictEqual(drawn[w], words[w], "order " + c + ", word " + w);
    assert.deepStrictEqual(await b.run(LAYOUT), [], "order " + c);
    looks.add(await b.run('document.getElementById("working-stage").innerHTML'));
    if (c === 77) await searchAndPicture(b);
  }
  assert.strictEqual(looks.size, 89, "moments that look alike");
  assert(/Map: the new one\./.test(await b.text("working-said")) && /Sound and settled/.test(await b.text("memory-said")));
  await b.key("Home");
  assert((await b.text("now")).startsWith("Order 0 of 88"));
  await b.key("End");
  await b.key("ArrowLeft");
  assert((await b.text("now")).startsWith("Order 87 of 88"));
  done("89 moments of the worked split, each of another look, by the arrow keys");
}

async function aCut(b) {
  await b.run("window.film.go(82)");
  await b.click("#cut button:nth-of-type(4)");
  assert(/leftover \(c\)/.test(await b.text("memory-said")), await b.text("memory-said"));
  assert(/Repair will make \d+ orders/.test(await b.text("memory-said")));
  await b.type("#code", "#110");
  assert(/moves to the sibling, node 3/.test(await b.text("memory-said")));
  assert.deepStrictEqual(await b.run(LAYOUT), []);
  await b.picture("film-cut.png");
  done("a cut of the split, chosen by a click, and a search in what it leaves");
}

async function theDrawings(b) {
  const count = await b.run("window.film.data.scenes.length");
  for (let i = 4; i < count; i++) {
    await b.run(`(function () { var s = document.getElementById("scene"); s.value = "${i}"; s.dispatchEvent(new Event("change")); })()`);
    assert(/neither old nor new/.test(await b.text("memory-said")), i);
    assert.strictEqual(await b.run('document.querySelectorAll("#lists .list").length'), 2);
    assert.deepStrictEqual(await b.run(LAYOUT), [], "drawing " + i);
    if (i === 7) await b.picture("film-drawing.png");
  }
  await b.click('#lists .list:nth-child(2) button[data-order="2"]');
  assert(/^Right: /.test(await b.run('document.getElementById("title").textContent')) && (await b.text("now")).startsWith("Order 2 of"));
  done(count - 4 + " wrong drawings open at the cut that loses a code, the right list beside them");
}

async function otherWays(b) {
  await b.run('(function () { var s = document.getElementById("scene"); s.value = "0"; s.dispatchEvent(new Event("change")); })()');
  /* The question was answered: it stays so. */
  assert.strictEqual(await b.run('document.querySelectorAll("[data-go=ask]").length'), 0);
  await b.click("#to-next");
  await b.click("#to-next");
  assert((await b.text("now")).startsWith("Order 2 of 88"));
  await b.click("#play");
  await b.until('window.film.state.order >= 4');
  await b.click("#play");
  const { data } = await b.send("Page.printToPDF", { landscape: true, printBackground: false, preferCSSPageSize: true });
  const pdf = Buffer.from(data, "base64").toString("latin1"), sheets = (pdf.match(/\/Type\s*\/Page\b(?!s)/g) || []).length;
  assert(sheets >= 1 && sheets <= 2, "printed on " + sheets + " sheets");
  for (const [width, height] of [[1024, 768], [1920, 1080], [700, 900]]) {
    await b.send("Emulation.setDeviceMetricsOverride", { width, height, deviceScaleFactor: 1, mobile: false });
    await b.until("window.innerWidth === " + width);
    await new Promise((resolve) => setTimeout(resolve, 400));
    assert.deepStrictEqual(await b.run(LAYOUT), [], width + " wide");
  }
  done("buttons, play, print on " + sheets + " sheets, windows from 700 to 1920 wide");
}

async function main() {
  const b = new Browser(browser, folder, pictures);
  try {
    await b.open("file://" + path.join(folder, "lesson.html"));
    await firstLook(b);
    await throughTheSplit(b);
    await aCut(b);
    await theDrawings(b);
    await otherWays(b);
    const wrong = b.heard.filter((m) => m.method === "Runtime.exceptionThrown" || (m.method === "Log.entryAdded" && m.params.entry.level === "error"));
    assert.deepStrictEqual(wrong, []);
    const asked = b.heard.filter((m) => m.method === "Network.requestWillBeSent").map((m) => m.params.request.url).filter((url) => !url.startsWith("file:"));
    assert.deepStrictEqual(asked, [], "the page asks a network");
    done("no error, and nothing asked of a network");
    console.log(passed + " passed, 0 failed");
  } finally {
    await b.close();
  }
}

main().catch((error) => { console.error(error); process.exit(1); });
