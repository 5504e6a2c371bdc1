/* Runs the script of each page named under node, with a document that only keeps what is put into it: goes through every order by the arrow keys and
 * through the choices of each cut, and compares what is drawn with the orders. The last line is 'N passed, 0 failed'. */
"use strict";
const assert = require("assert");
const fs = require("fs");
const vm = require("vm");

/* Choices of one moment that are clicked. */
const MOST_CHOICES = 40;

/* ---- a document, as far as the page uses one */

class Element {
  constructor(id) {
    Object.assign(this, { id, innerHTML: "", textContent: "", value: "", className: "", hidden: false, disabled: false });
    Object.assign(this, { style: {}, listeners: {}, attributes: {}, clientWidth: 0, firstElementChild: null });
  }
  addEventListener(name, f) { (this.listeners[name] = this.listeners[name] || []).push(f); }
  setAttribute(name, value) { this.attributes[name] = String(value); }
  fire(name, event) { (this.listeners[name] || []).forEach((f) => f(event || { target: this, preventDefault() {} })); }
}

function open(page, hash) {
  const html = fs.readFileSync(page, "utf8");
  const body = html.slice(html.indexOf("<body>"));
  const elements = {};
  for (const m of body.matchAll(/<[a-z0-9]+[^>]*\bid="([^"]+)"/g)) elements[m[1]] = elements[m[1]] || new Element(m[1]);
  elements.data.textContent = body.match(/<script type="application\/json" id="data">([^]*?)<\/script>/)[1];
  const script = body.match(/<script>\n([^]*)<\/script>/)[1];
  const document = new Element("document"), window = new Element("window");
  document.getElementById = (id) => { assert(elements[id], "no element " + id); return elements[id]; };
  document.querySelectorAll = () => [];
  Object.assign(window, { location: { hash: hash || "" }, history: { replaceState(_, __, to) { window.location.hash = to; } }, innerHeight: 800, setInterval: () => 1, clearInterval() {} });
  vm.runInNewContext(script, { document, window, BigInt, Math, JSON, Object, String, Number, parseInt, encodeURIComponent, decodeURIComponent, Boolean }, { filename: page });
  return { html, elements, document, window, data: JSON.parse(elements.data.textContent) };
}

function press(p, key) {
  let taken = false;
  p.document.fire("keydown", { key, target: { id: "" }, preventDefault() { taken = true; } });
  assert(taken, key + " does nothing");
}

function click(p, dataset) { p.document.fire("click", { target: { closest: () => ({ dataset }) } }); }

/* ---- what is drawn, and what should be */

/* Each word drawn of one side, and which of them is marked as just stored. */
function drawn(html) {
  const words = {}, stored = [];
  for (const m of html.matchAll(/<b class="([^"]*)" data-word="(\d+)" data-value="(\d+)">/g)) {
    words[m[2]] = m[3];
    if (m[1].split(" ").includes("stored")) stored.push(Number(m[2]));
  }
  return { words, stored };
}

/* Each line by itself: what it held at its last flush, and the stores since. */
function linesAt(scene, c) {
  const lines = new Map();
  const line = (n) => { if (!lines.has(n)) lines.set(n, { sure: [], late: [] }); return lines.get(n); };
  scene.orders.slice(0, c).forEach((o) => {
    if (o[0] === "store") line(Math.floor(o[1] / 8)).late.push(o);
    if (o[0] === "flush") { const l = line(o[1]); l.sure = l.sure.concat(l.late); l.late = []; }
  });
  return lines;
}

function expected(scene, lines, written) {
  const words = {};
  scene.header.forEach((v, i) => { words[i] = v; });
  scene.places.forEach((p) => p.words && p.words.forEach((v, i) => { words[8 + 32 * (p.node - 1) + i] = v; }));
  lines.forEach((l, n) => l.sure.concat(l.late.slice(0, written(n, l))).forEach((o) => { words[o[1]] = o[2]; }));
  return words;
}

function compare(html, words, what) {
  const found = drawn(html);
  for (const word of Object.keys(found.words)) assert.strictEqual(found.words[word], words[word], what + ": word " + word);
  /* A node's four lines are drawn whole, or nothing of it. */
  const perNode = {};
  Object.keys(found.words).filter((w) => w >= 8).forEach((w) => { const n = Math.floor((w - 8) / 32) + 1; perNode[n] = (perNode[n] || 0) + 1; });
  for (const n of Object.keys(perNode)) assert.strictEqual(perNode[n], 32, what + ": node " + n + " has " + perNode[n] + " words");
  return { stored: found.stored, nodes: Object.keys(perNode).map(Number) };
}

/* The verdict in a class's words stands first. */
function classWords(html, map, sound) {
  const text = plain(html.match(/<p class="plain [^]*?<\/p>/)[0]);
  if (map[0] === "neither") return text.includes(map[1] + " code") && text.includes(sound.number ? "the tree itself is broken" : "though the tree itself is in order");
  return sound.number ? text.includes("No code is lost, but the tree itself is broken") : text.includes("Every code is found");
}

function plain(html) {
  const text = html.replace(/<[^>]*>/g, " ").replace(/&quot;/g, '"').replace(/&nbsp;/g, " ").replace(/&#10132;/g, ">").replace(/&amp;/g, "&");
  return text.replace(/\s+/g, " ").replace(/ ([;.,:])/g, "$1");
}

/* The images in the order in which the film has them: with each store, the other lines with unflushed stores as the digits of a counter. By how many stores
 * of each line an image holds. */
function imagesOf(scene) {
  const images = new Map(), name = (held) => [...held].filter(([, k]) => k > 0).sort((a, b) => a[0] - b[0]).join(";");
  images.set("", scene.images[0]);
  scene.orders.forEach((o, i) => {
    if (o[0] !== "store") return;
    const own = Math.floor(o[1] / 8), lines = linesAt(scene, i + 1), others = [...lines].filter(([n, l]) => n !== own && l.late.length > 0).sort((a, b) => a[0] - b[0]);
    const digits = others.map(() => 0);
    for (let at = 0; at < scene.images[i + 1].length; at += 4) {
      const held = new Map([...lines].map(([n, l]) => [n, l.sure.length + l.late.length]));
      others.forEach(([n, l], k) => held.set(n, l.sure.length + digits[k]));
      images.set(name(held), scene.images[i + 1].slice(at, at + 4));
      for (let k = digits.length - 1; k >= 0 && ++digits[k] > others[k][1].late.length; k--) digits[k] = 0;
    }
  });
  return { of: (lines, written) => images.get(name(new Map([...lines].map(([n, l]) => [n, l.sure.length + (written(n, l) || 0)])))) };
}

/* One side says what the data say of its image. */
function checkTold(p, scene, side, four, what) {
  assert(four, what + ": no image");
  const text = plain(p.elements[side + "-said"].innerHTML), sound = scene.sound[four[0]], map = scene.maps[four[1]], kinds = scene.kinds[four[3]].split("|");
  assert(classWords(p.elements[side + "-said"].innerHTML, map, sound), what + ": " + text);
  const said = text.match(/Map: (the old one|the new one|unchanged|neither old nor new)\./)[1];
  assert.strictEqual(said, { old: scene.change.kind === "repair" ? "unchanged" : "the old one", new: "the new one", neither: "neither old nor new" }[map[0]], what);
  if (map[0] === "neither") assert(text.includes("nor new. " + map[1] + " code") && (p.elements[side + "-said"].innerHTML.match(/<li>/g) || []).length >= Math.min(12, map[1]), text);
  assert(text.includes(sound.number !== 0 ? "NOT SOUND. Every change of this table is refused with " + sound.number : sound.letter ? "Sound, unfinished: " + sound.left : "Sound and settled"), what);
  if (side === "memory" && sound.letter) assert(text.includes("Repair will make " + sound.repair.length + " order"), what);
  const drawnKinds = {};
  for (const m of p.elements[side + "-stage"].innerHTML.matchAll(/data-node="(\d+)" data-kinds="([^"]+)"/g)) drawnKinds[m[1]] = m[2];
  scene.places.forEach((place, i) => { if (drawnKinds[place.node]) assert.strictEqual(drawnKinds[place.node], kinds[i], what + ": node " + place.node); });
}

function checkMoment(p, scene, c) {
  const e = p.elements, lines = linesAt(scene, c), what = scene.title + ", order " + c;
  assert(e.now.textContent.startsWith("Order " + c + " of " + scene.orders.length + ": "), what + ": " + e.now.textContent);
  assert.strictEqual(Number(e.order.value), c);
  assert.strictEqual(Number(e.order.max), scene.orders.length);
  const all = expected(scene, lines, (n, l) => l.late.length), sure = expected(scene, lines, () => 0);
  const working = compare(e["working-stage"].innerHTML + e["working-said"].innerHTML, all, what + ", working copy");
  const order = scene.orders[c - 1];
  if (order && order[0] === "store") assert.deepStrictEqual([...new Set(working.stored)], [order[1]], what + ": the word just stored");
  else assert.deepStrictEqual(working.stored, [], what);
  /* Every node stored to is drawn from its first store on. */
  scene.orders.slice(0, c).forEach((o) => { if (o[0] === "store" && o[1] >= 8) assert(working.nodes.includes(Math.floor((o[1] - 8) / 32) + 1), what + ": " + o); });
  const dirty = [...lines].filter(([, l]) => l.late.length > 0);
  const text = plain(e["working-stage"].innerHTML);
  const told = dirty.map(([, l]) => "dirty: " + l.late.length).sort();
  assert.deepStrictEqual((text.match(/dirty: \d+/g) || []).sort(), told, what);
  assert.strictEqual((text.match(/flushed/g) || []).length, [...lines].filter(([, l]) => l.late.length === 0 && l.sure.length > 0).length, what);
  /* In memory for certain: nothing that is not flushed, unless the page opened at a choice. */
  return { lines, dirty, sure, what };
}

/* Clicks choices of a cut: all of them, or some that are spread. */
function checkChoices(p, scene, moment, images) {
  const e = p.elements, counts = moment.dirty.map(([, l]) => l.late.length + 1), total = counts.reduce((a, b) => a * b, 1);
  const sorted = [...new Set(scene.orders.filter((o) => o[0] === "store").map((o) => Math.floor(o[1] / 8)))].sort((a, b) => a - b);
  const stride = Math.max(1, Math.floor(total / (scene.some.length > 0 ? MOST_CHOICES / 5 : MOST_CHOICES)));
  let tried = 0;
  for (let i = 0; i < total; i += stride) {
    const written = new Map();
    let rest = i;
    moment.dirty.forEach(([n], k) => { written.set(n, rest % counts[k]); rest = Math.floor(rest / counts[k]); });
    moment.dirty.forEach(([n, l]) => click(p, { line: String(sorted.indexOf(n)), kept: String(l.sure.length + written.get(n)) }));
    /* Where there are too many choices the page may have changed the others. */
    const pressed = [...e.cut.innerHTML.matchAll(/data-line="(\d+)" data-kept="(\d+)" aria-pressed="true"/g)].map((m) => [sorted[m[1]], m[2] - moment.lines.get(sorted[m[1]]).sure.length]);
    if (scene.some.length === 0) assert.deepStrictEqual(pressed, [...written].sort((a, b) => a[0] - b[0]), moment.what);
    else pressed.forEach(([n, k]) => written.set(n, k));
    compare(e["memory-stage"].innerHTML + e["memory-said"].innerHTML, expected(scene, moment.lines, (n) => written.get(n) || 0), moment.what + ", choice " + i);
    if (scene.some.length === 0) checkTold(p, scene, "memory", images.of(moment.lines, (n) => written.get(n)), moment.what + ", choice " + i);
    const text = plain(e["memory-said"].innerHTML);
    assert(/Map: (the old one|the new one|unchanged|neither old nor new)\./.test(text) && /(Sound and settled:|Sound, unfinished:|NOT SOUND\.)/.test(text), text);
    assert(/Repair (has nothing to do|will make \d+ orders?:|is refused)/.test(text), text);
    if (scene.own) assert(!/neither|NOT SOUND/.test(text), moment.what + ": our own list loses a code");
    moment.dirty.forEach(([n, l]) => { assert(plain(e["memory-stage"].innerHTML).includes(written.get(n) + " of " + l.late.length + " written"), moment.what); });
    tried++;
  }
  return tried;
}

/* The answer of the last mark that is at most the key, looked for one by one. */
function checkAnswer(p, scene, four, code, text) {
  const digits = "0123456789ABCDEFGHIJKLMNOPQRSTUVWXYZabcdefghijklmnopqrstuvwxyz-_", key = BigInt(p.window.film.readCode(code));
  const mark = scene.marks.filter((m) => BigInt(m) <= key).length - 1, row = scene.rows[four[2]].slice(3 * mark, 3 * mark + 3);
  const [number, value, slot, steps] = scene.ways[[...row].reduce((sum, c) => 64 * sum + digits.indexOf(c), 0)];
  const nodes = steps.filter((_, i) => i % 2 === 0), way = [...text.matchAll(/(?:root, node|sibling, node|to node) (\d+)/g)].map((m) => Number(m[1]));
  assert.deepStrictEqual(way.slice(-nodes.length), nodes, code + ": " + text);
  if (number === 0) assert(text.includes("finds it in slot " + slot + ": recording " + (BigInt(value) & ((1n << 56n) - 1n))), code + ": " + text);
  if (number === 255) assert(text.includes(value ? "the next code up is " + p.window.film.keyText(value) : "no code is higher"), code + ": " + text);
}

/* Types each code that is offered, and some that are not: the answer stands there in words, and no word drawn moves. */
function checkSearches(p, scene, some, four) {
  const e = p.elements, offered = [...e.codes.innerHTML.matchAll(/value="([^"]+)"/g)].map((m) => m[1]);
  const codes = (some ? offered.filter((_, i) => i % 3 === 0) : offered).concat(["ZZ-999-99-99999", "#0", "#18446744073709551615"]);
  const before = [drawn(e["working-stage"].innerHTML).words, drawn(e["memory-stage"].innerHTML).words];
  let found = 0;
  codes.forEach((code) => {
    e.code.value = code;
    e.code.fire("input");
    const text = plain(e["working-said"].innerHTML);
    const answer = /finds it in slot \d+: recording \d+|where it is absent; (the next code up is|no code is higher)|is lost|is refused with/;
    assert(/This page holds the ways/.test(text) || (/Search for .*/.test(text) && answer.test(text)), text);
    assert(/No word changes/.test(text) || /This page holds/.test(text), text);
    if (four && !/This page holds/.test(text)) checkAnswer(p, scene, four, code, text);
    found += /finds it in slot/.test(text);
    assert.deepStrictEqual([drawn(e["working-stage"].innerHTML).words, drawn(e["memory-stage"].innerHTML).words], before, "a search moved a word");
  });
  e.code.value = "nonsense";
  e.code.fire("input");
  assert(/is not a code/.test(e["working-said"].innerHTML));
  e.code.value = "";
  e.code.fire("input");
  assert(!/Search for/.test(e["working-said"].innerHTML));
  return { found, offered: offered.length };
}

/* ---- one page */

function checkPage(page) {
  const p = open(page), counts = { scenes: p.data.scenes.length, moments: 0, choices: 0, searches: 0 };
  const outside = p.html.match(/https?:|src=|<link|@import|url\((?!#)|fetch\(|XMLHttpRequest/g);
  assert.strictEqual(outside, null, page + " wants something from outside: " + outside);
  p.data.scenes.forEach((scene, index) => {
    p.elements.scene.value = String(index);
    p.elements.scene.fire("change");
    const bad = scene.lost || scene.unsound;
    assert.strictEqual(Number(p.elements.order.value), bad ? bad.order : 0, scene.title);
    if (scene.ask) checkAsked(p, scene);
    checkGuess(p, scene, index);
    if (scene.lost || scene.unsound) { p.elements.scene.fire("change"); }
    if (scene.lost) {
      const text = plain(p.elements["memory-said"].innerHTML);
      assert(/neither old nor new/.test(text) && text.includes(p.elements.code.value + ": "), text);
      assert(/The first cut that loses a code comes after order/.test(p.elements.told.innerHTML));
    } else if (!bad) assert(/No cut loses a code/.test(p.elements.told.innerHTML));
    p.elements.code.value = "";
    p.elements.code.fire("input");
    press(p, "Home");
    const images = imagesOf(scene);
    for (let c = 0; c <= scene.orders.length; c++) {
      if (c > 0) press(p, "ArrowRight");
      const moment = checkMoment(p, scene, c);
      compare(p.elements["memory-stage"].innerHTML + p.elements["memory-said"].innerHTML, moment.sure, moment.what + ", memory");
      const four = scene.some.length === 0 ? images.of(moment.lines, (n, l) => l.late.length) : null;
      if (four) checkTold(p, scene, "working", four, moment.what);
      counts.choices += checkChoices(p, scene, moment, images);
      counts.moments++;
      if (c % 7 === 0 || c === scene.orders.length) counts.searches += checkSearches(p, scene, true, four).found;
    }
    press(p, "ArrowRight");
    checkMoment(p, scene, scene.orders.length);
    if (scene.orders.length > 0) { press(p, "ArrowLeft"); checkMoment(p, scene, scene.orders.length - 1); }
    press(p, "End");
    checkMoment(p, scene, scene.orders.length);
    const last = scene.some.length === 0 ? images.of(linesAt(scene, scene.orders.length), (n, l) => l.late.length) : null;
    const all = checkSearches(p, scene, false, last);
    assert(all.offered === 0 || all.found > 0);
    p.elements.order.value = "1";
    p.elements.order.fire("input");
    if (scene.orders.length > 0) checkMoment(p, scene, 1);
    checkHash(page, p);
  });
  return counts;
}

/* A scene that asks first answers nothing before it is asked: no count, no later order, no verdict. */
function checkAsked(p, scene) {
  assert(p.elements.told.innerHTML.includes("show the answer") && !p.elements.told.innerHTML.includes(String(scene.orders.filter((o) => o[0] === "store").length)), "the question is answered");
  press(p, "ArrowRight");
  assert(/^Order 1: /.test(p.elements.now.textContent), p.elements.now.textContent);
  assert.strictEqual((p.elements.lists.innerHTML.match(/data-order/g) || []).length, 1);
  assert(!/Map:|Sound/.test(p.elements["working-said"].innerHTML + p.elements["memory-said"].innerHTML) && p.elements["memory-tag"].innerHTML === "");
  press(p, "Home");
  click(p, { go: "ask" });
  assert(/^Order 0 of /.test(p.elements.now.textContent));
}

/* Guess first: counts, verdicts and the right list wait, and come when asked for. */
function checkGuess(p, scene, index) {
  p.elements.guess.checked = true;
  p.elements.guess.fire("change");
  p.elements.scene.value = String(index);
  p.elements.scene.fire("change");
  assert.strictEqual(Number(p.elements.order.value), 0, scene.title);
  assert(/^Order 0: /.test(p.elements.now.textContent) && !/Map:|Sound/.test(p.elements["memory-said"].innerHTML) && p.elements["working-tag"].innerHTML === "");
  assert(!/first cut that|The judge says|nearest right list/.test(p.elements.told.innerHTML + p.elements.lists.innerHTML) && !/9650/.test(p.elements.ticks.innerHTML), scene.title);
  click(p, { go: "ask" });
  assert(/Map:/.test(p.elements["memory-said"].innerHTML) && (/The judge says/.test(p.elements.told.innerHTML) || scene.judge === null));
  p.elements.guess.checked = false;
  p.elements.guess.fire("change");
  if (scene.ask) click(p, { go: "ask" });
}

/* Addresses that are none of ours show the first scene, or what they name as far as it is there. */
function checkHostile(page) {
  for (const hash of ["#code=%", "#scene=%&order=%", "#scene=1&order=5&code=%E0%A4%A", "#scene=99", "#scene=-1&order=2", "#order=1e99", "#scene=1&order=NaN&cut=x:y,,:", "#board", "#&&&===", "#scene=1&order=3&cut=2:99999", "#scene=constructor"]) {
    const p = open(page, hash);
    assert(/^Order \d+/.test(p.elements.now.textContent) && p.elements["working-stage"].innerHTML.includes("data-word"), hash + ": " + p.elements.now.textContent);
  }
}

/* The address after the # opens the same moment. */
function checkHash(page, p) {
  const hash = p.window.location.hash, again = open(page, hash);
  const shown = (page, id) => page.elements[id].innerHTML + page.elements[id].textContent;
  ["now", "working-said", "memory-said", "title"].forEach((id) => assert.strictEqual(shown(again, id), shown(p, id)));
  assert.strictEqual(again.window.location.hash, hash);
}

/* Codes are read and written as the program does. */
function checkCodes(page, pairs) {
  const film = open(page).window.film;
  pairs.forEach(([key, code]) => {
    assert.strictEqual(film.keyText(key), code);
    assert.strictEqual(film.readCode(code), key);
  });
  assert.strictEqual(film.readCode("aa-000 19-12345"), "172627201912345");
  ["1A0001912345", "AA00019123456", "AA000191234", "", "#", "#18446744073709551616", "AA000191234X"].forEach((text) => assert.strictEqual(film.readCode(text), null, text));
  assert.strictEqual(film.keyText("604661760000000"), "604661760000000");
  assert.strictEqual(film.keyText("115"), "115");
}

const pages = process.argv.slice(2);
let passed = 0;
checkCodes(pages[0], [["172627201912345", "AA0001912345"], ["604661759999999", "ZZZZZ9999999"], ["172627202600060", "AA0002600060"]]);
passed++;
checkHostile(pages[0]);
passed++;
pages.forEach((page) => {
  const counts = checkPage(page);
  passed++;
  console.log(page.replace(/.*\//, "") + ": " + Object.keys(counts).map((k) => counts[k] + " " + k).join(", ") + ", " + fs.statSync(page).size + " bytes");
});
console.log(passed + " passed, 0 failed");
