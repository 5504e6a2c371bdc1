/* What people need to see and reach, in the film, on the board and on the teacher's page: seen.js BROWSER FOLDER PICTURES. Names and roles of what can be reached,
 * contrast in light, dark and print, targets of 24 px, focus kept, controls in sight, print on one sheet. The last line is 'N passed, 0 failed'. */
"use strict";
const assert = require("assert");
const path = require("path");
const { Browser } = require("./browser.js");
const look = require("./look.js");

const [browser, folder] = process.argv.slice(2);
const SIZES = { tablet: [1024, 768], upright: [768, 1024], projector: [1280, 800], phone: [390, 844] };
let passed = 0;
function done(what) { passed++; console.log(what); }

/* Moments that show every sign: hidden, trailing and stale slots, a dirty line, a search, a bad verdict, a good one. */
const MOMENTS = ["#scene=1&order=77&code=%2390", "#scene=5&order=5&code=AA0002600040", "#scene=2&order=3", "#scene=7&order=10"];

async function at(b, hash) {
  await b.run(`window.location.hash = ${JSON.stringify(hash)}`);
  await b.until(`window.film.state.order === ${/order=(\d+)/.exec(hash)[1]} && window.film.state.scene === ${Number(/scene=(\d+)/.exec(hash)[1]) - 1}`);
}

async function namesAndRoles(b, what) {
  assert.deepStrictEqual(await b.run(look.NAMES), [], what);
  assert.deepStrictEqual(await b.run(look.ROLES), [], what);
}

async function film(b) {
  for (const hash of MOMENTS) {
    await at(b, hash);
    await namesAndRoles(b, hash);
    for (const [size, [width, height]] of Object.entries(SIZES)) {
      await b.screen(width, height, size !== "projector");
      assert.deepStrictEqual(await b.run(look.TARGETS), [], size + " " + hash);
      assert.deepStrictEqual(await b.run(look.LAYOUT), [], size + " " + hash);
    }
  }
  done("the film: names, roles, targets of 24 px and layout at four sizes");
  await b.screen(1024, 768, true);
  await at(b, "#scene=8&order=22");
  const key = await b.run(look.KEY_SIZE);
  assert(key >= 9, "keys of " + key + " px at 1024 x 768");
  await b.screen(768, 1024, true);
  await b.run("window.scrollTo(0, 600)");
  const top = await b.run('(function () { var r = document.getElementById("controls").getBoundingClientRect(); return [r.top, r.bottom]; })()');
  assert(top[0] >= -1 && top[1] < 500, "the controls are not in sight: " + top);
  done("keys of " + key.toFixed(1) + " px at 1024 x 768; controls stay in sight");
}

async function contrast(b) {
  await b.screen(1280, 800, false);
  for (const [name, media, features] of [["light", "", []], ["dark", "", [{ name: "prefers-color-scheme", value: "dark" }]], ["print", "print", []], ["print, dark", "print", [{ name: "prefers-color-scheme", value: "dark" }]]]) {
    await b.send("Emulation.setEmulatedMedia", { media, features });
    for (const hash of MOMENTS) {
      await at(b, hash);
      const low = await b.run(look.CONTRAST);
      assert.deepStrictEqual(low.slice(0, 5), [], name + " " + hash);
    }
    done("contrast of every text in the film, " + name);
  }
  await b.send("Emulation.setEmulatedMedia", { media: "", features: [{ name: "forced-colors", value: "active" }] });
  await at(b, MOMENTS[1]);
  assert(await b.run('matchMedia("(forced-colors: active)").matches'));
  assert.deepStrictEqual(await b.run(look.LAYOUT), []);
  done("forced colours");
  await b.send("Emulation.setEmulatedMedia", { media: "", features: [] });
}

async function focus(b) {
  await at(b, "#scene=7&order=10");
  await b.run('document.querySelector("#cut button[data-kept]:not([aria-pressed=\\"true\\"])").focus()');
  const before = await b.run("JSON.stringify(document.activeElement.dataset)");
  await b.key("Enter");
  await b.until(`JSON.stringify(document.activeElement.dataset) === ${JSON.stringify(before)} && document.activeElement.getAttribute("aria-pressed") === "true"`);
  done("after a choice by the keyboard the focus is where it was");
}

async function print(b) {
  await b.screen(1280, 800, false);
  for (const landscape of [true, false]) {
    const sheets = [];
    for (const hash of MOMENTS.slice(0, 3)) {
      await at(b, hash);
      const { data } = await b.send("Page.printToPDF", { landscape, printBackground: true, preferCSSPageSize: false, paperWidth: 8.27, paperHeight: 11.69 });
      sheets.push((Buffer.from(data, "base64").toString("latin1").match(/\/Type\s*\/Page\b(?!s)/g) || []).length);
      require("fs").writeFileSync(path.join(folder, "print-" + (landscape ? "lying" : "standing") + sheets.length + ".pdf"), Buffer.from(data, "base64"));
    }
    assert(sheets.every((n) => n === 1), "printed on " + sheets + " sheets, " + (landscape ? "lying" : "standing"));
    done("print of three moments on one sheet each, " + (landscape ? "lying" : "standing"));
  }
}

async function hostile(b) {
  for (const hash of ["#code=%", "#scene=%25&order=%", "#scene=99&order=1", "#order=-5", "#scene=1&order=3&cut=2:99999,x"]) {
    await b.send("Page.navigate", { url: "about:blank" });
    await b.send("Page.navigate", { url: "file://" + path.join(folder, "lesson.html") + hash });
    await b.until('document.readyState === "complete" && Boolean(window.film) && document.querySelectorAll("#working-stage [data-word]").length > 0');
  }
  done("hostile addresses show a scene");
}

async function board(b) {
  await b.until("Boolean(window.board)");
  await b.screen(1024, 768, true);
  await b.tap("#to-board");
  await b.until('document.querySelectorAll("#working-stage .word").length > 0');
  await namesAndRoles(b, "the board");
  await b.tap('#working-stage [data-word="23"]');
  await b.until('!document.getElementById("chooser").hidden');
  await namesAndRoles(b, "the chooser");
  await b.tap('#chooser-values [data-value="104"]');
  await b.until("window.board.orders().length === 1");
  for (const [size, [width, height]] of Object.entries(SIZES)) {
    await b.screen(width, height, size !== "projector");
    assert.deepStrictEqual(await b.run(look.TARGETS), [], size);
    assert.deepStrictEqual(await b.run(look.LAYOUT), [], size);
  }
  for (const value of ["light", "dark"]) {
    await b.send("Emulation.setEmulatedMedia", { media: "", features: [{ name: "prefers-color-scheme", value }] });
    assert.deepStrictEqual((await b.run(look.CONTRAST)).slice(0, 5), [], value);
    b.pictures = folder;
    await b.screen(1024, 768, true);
    await b.picture("seen-board-" + value + ".png");
  }
  await b.send("Emulation.setEmulatedMedia", { media: "", features: [] });
  done("the board: names, roles, targets, layout at four sizes, contrast in light and dark");
  await b.run("window.print = function () {}");
  await b.tap("#sheet-solved");
  await b.until('document.body.classList.contains("sheet")');
  await b.send("Emulation.setEmulatedMedia", { media: "print" });
  const sheet = await b.run('[document.querySelectorAll("#sheet table").length, document.querySelectorAll("#sheet .orders li").length, getComputedStyle(document.querySelector("main")).display]');
  assert.deepStrictEqual(sheet, [2, 10, "none"]);
  b.pictures = folder;
  await b.picture("seen-sheet.png");
  await b.send("Emulation.setEmulatedMedia", { media: "" });
  done("the worksheet");
}

async function teacher(b) {
  await b.send("Page.navigate", { url: "file://" + path.join(folder, "class.html") });
  await b.until('document.readyState === "complete" && document.querySelectorAll("#class tbody tr").length > 0');
  await b.screen(1280, 800, false);
  const rows = await b.run('[].map.call(document.querySelectorAll("#class tbody tr"), function (r) { return [].map.call(r.children, function (c) { return c.textContent; }); })');
  assert(rows.some((r) => r.join("|") === "key-before-pointer|no|5 of 12|shift order") && rows.some((r) => r[0] === "right" && r[1] === "yes"), JSON.stringify(rows));
  assert.deepStrictEqual(await b.run(look.NAMES), []);
  b.pictures = folder;
  await b.picture("seen-class.png");
  await b.click("#class tbody tr:nth-child(3) button");
  await b.until("window.film.state.order === 5");
  done("the teacher's page: " + rows.length + " rows, each opens its list");
}

async function main() {
  const b = new Browser(browser, folder, folder);
  try {
    await b.open("file://" + path.join(folder, "lesson.html"));
    await film(b);
    await contrast(b);
    await focus(b);
    await print(b);
    await hostile(b);
    await board(b);
    await teacher(b);
    console.log(passed + " passed, 0 failed");
  } finally {
    await b.close();
  }
}

main().catch((error) => { console.error(error); process.exit(1); });
