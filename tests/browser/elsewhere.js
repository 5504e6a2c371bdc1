/* The lesson in other browsers than Chromium: elsewhere.js FOLDER DRAWINGS. Each that is there steps through the worked split, draws a right list and wrong ones, has them
 * judged by the page, and shows a cut. One that is not there is named. The last line is 'N passed, 0 failed'. */
"use strict";
const assert = require("assert");
const fs = require("fs");
const path = require("path");
const { execFileSync } = require("child_process");
const { Firefox, WebKit } = require("./others.js");
const { Drawings } = require("./drawing.js");

const [folder, drawings] = process.argv.slice(2);
const drawn = new Drawings(drawings);
let passed = 0;
function done(what) { passed++; console.log(what); }

function program(...names) {
  for (const name of names) {
    try { return execFileSync("/bin/sh", ["-c", "command -v " + name], { encoding: "utf8" }).trim(); } catch { /* the next one */ }
  }
  return "";
}

/* The browser that WebKit's driver starts lies beside its library. */
function miniBrowser() {
  for (const top of ["/usr/lib", "/usr/libexec"]) {
    for (const one of fs.existsSync(top) ? fs.readdirSync(top) : []) {
      for (const version of ["webkit2gtk-4.1", "webkitgtk-6.0", "webkit2gtk-4.0"]) {
        for (const at of [path.join(top, one, version, "MiniBrowser"), path.join(top, version, "MiniBrowser")]) if (fs.existsSync(at)) return at;
      }
    }
  }
  return "";
}

async function theFilm(b, name) {
  await b.click('[data-go="ask"]');
  const looks = new Set([await b.run('document.getElementById("working-stage").innerHTML')]);
  for (let c = 1; c <= 88; c++) {
    await b.click("#to-next");
    assert((await b.text("now")).startsWith("Order " + c + " of 88: "), name);
    looks.add(await b.run('document.getElementById("working-stage").innerHTML'));
  }
  assert.strictEqual(looks.size, 89, "moments that look alike");
  await b.run("window.film.go(82)");
  await b.click("#cut button:nth-of-type(4)");
  assert(/leftover \(c\)/.test(await b.text("memory-said")), await b.text("memory-said"));
  done(name + ": 89 moments of the worked split, each of another look, and a cut");
}

async function theBoard(b, name) {
  await b.tap("#to-board");
  await b.until('document.body.classList.contains("board") && document.querySelectorAll("#working-stage .word").length > 0');
  for (const list of ["right", "key-before-pointer", "flush-at-the-end"]) {
    const { count, said } = await drawn.draw(b, list);
    done(`${name}: ${list}, ${count} orders by taps: ${said.judge === "yes" ? "right" : "no after " + said.count + ", " + said.mistake}`);
  }
}

async function lesson(b, name, words) {
  const own = fs.mkdtempSync(path.join(folder, "browser-"));
  try {
    await b.start(words[0], own, words[1]);
    await b.open("file://" + path.join(folder, "lesson.html"));
    const called = name + " " + b.version;
    await theFilm(b, called);
    await theBoard(b, called);
    await b.picture(path.join(folder, name + ".png"));
    assert.deepStrictEqual(await b.run("window.wrong"), [], called);
    done(called + ": no error");
  } finally {
    await b.close();
  }
}

async function main() {
  const firefox = program("firefox-esr", "firefox"), driver = program("WebKitWebDriver"), mini = miniBrowser();
  if (firefox) await lesson(new Firefox(), "Firefox", [firefox]);
  else console.log("skipped: Firefox (apt-get install firefox-esr)");
  if (driver && mini && program("Xvfb")) await lesson(new WebKit(), "WebKit", [driver, mini]);
  else console.log("skipped: WebKit (apt-get install webkit2gtk-driver xvfb)");
  console.log(passed + " passed, 0 failed");
}

main().catch((error) => { console.error(error); process.exit(1); });
