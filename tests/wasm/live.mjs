// node live.mjs LIVE.wasm LIVE.js PROGRAM DRAWINGS: the page's judge and film against the program's, on every drawing, on odd lists and on spoilt ones:
// status, standard output and standard error are compared. The last line is 'N passed, M failed'.
import fs from "node:fs";
import os from "node:os";
import path from "node:path";
import vm from "node:vm";
import { spawnSync } from "node:child_process";

const [wasm, script, program, drawings] = process.argv.slice(2);
const liveFrom = vm.runInThisContext(fs.readFileSync(script, "utf8") + "\nliveFrom");
const live = await liveFrom(fs.readFileSync(wasm));
const work = fs.mkdtempSync(path.join(os.tmpdir(), "live"));
const native = (words, input) => spawnSync(program, words, { cwd: work, encoding: "utf8", input, maxBuffer: 1 << 28 });
const csv = (table) => fs.readFileSync(path.join(drawings, table + ".csv"), "utf8");
let same = 0, other = 0;

/* The program's table has another name, and its list is a file's. */
function plain(text, table) {
  return text.split(table + ".cat").join("the table").split("the orders of standard input").join("LIST").split("standard input").join("LIST").split("the orders").join("LIST").replace(/\bLIST has\b/g, "LIST has");
}

async function compare(name, table, change, list) {
  const words = change.sign === "+" ? ["+", change.code, change.recording] : ["-", change.code], lent = { nodes: 6, csv: csv(table) };
  for (const what of ["judge", "film"]) {
    const n = native(what === "judge" ? ["judge", table + ".cat", "-", ...words] : ["film", table + ".cat", ...words, "--list", "-", "--data"], list);
    let w;
    try { w = await live[what](lent, change, list); } catch (e) { w = { status: String(e), text: "", said: "" }; }
    const ok = n.status === w.status && plain(n.stdout, table) === plain(w.text, table) && plain(n.stderr, table) === plain(w.said, table);
    if (ok) same++; else { other++; console.log("OTHER", what, name, n.status, w.status, n.stderr.trim(), "|", w.said.trim(), n.stdout === w.text); }
  }
}

for (const table of ["leaf", "full"]) { native(["make", table + ".cat", "6"]); native(["load", table + ".cat", path.resolve(drawings, table + ".csv")]); }
for (const name of fs.readdirSync(drawings).filter((n) => n.endsWith(".txt"))) {
  const list = fs.readFileSync(path.join(drawings, name), "utf8"), m = /# catalogue judge (\w+)\.cat \S+ ([+-]) (\w+) ?(\d*)/.exec(list);
  await compare(name, m[1], { sign: m[2], code: m[3], recording: m[4] }, list);
}
const add = { sign: "+", code: "AA0002600120", recording: "112" }, right = fs.readFileSync(path.join(drawings, "right.txt"), "utf8");
const lines = right.split("\n").filter((l) => l && l[0] !== "#");
for (const list of ["", "store", "store 1", "store 1 2 3", "store 999 1", "flush 999", "store 18446744073709551615 1", "barrier", "store 18446744073709551616 1", "\u00e4\u0007", "node 1 slot 12 key := 0",
  "node 1 slot 0 key := AA0002600120", "n1 s0 ptr=MARK\nflush n1 s0-3", "done\nstore 1 2\ndone\nstore 1 2", lines.join("\n") + "\nbarrier".repeat(2000)]) await compare(JSON.stringify(list.slice(0, 40)), "full", add, list);
for (const change of [{ sign: "-", code: "AA0002600999" }, { sign: "+", code: "AA0002600010", recording: "1" }, { sign: "+", code: "nonsense", recording: "1" }, { sign: "+", code: "AA0002600120", recording: "0" },
  { sign: "+", code: "AA0002600120", recording: "101" }]) await compare(JSON.stringify(change), "full", change, right);
let random = 12345;
const below = (n) => { random = (Math.imul(random, 1103515245) + 12345) >>> 0; return (random >>> 8) % n; };
for (let i = 0; i < 40; i++) {
  const l = lines.slice(), at = below(l.length);
  if (i % 5 === 0) l.splice(at, 1);
  else if (i % 5 === 1) l.splice(at, 2, l[(at + 1) % l.length], l[at]);
  else if (i % 5 === 2) l.splice(at, 0, "store " + below(210) + " " + below(300));
  else if (i % 5 === 3) l[at] = "flush " + below(27);
  else l.length = at;
  await compare("spoilt " + i, "full", add, l.join("\n"));
}
fs.rmSync(work, { recursive: true });
console.log(same + " passed, " + other + " failed");
