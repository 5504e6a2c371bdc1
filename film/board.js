/* The drawing board: a list of orders made by taps, in a table of one's own or of the lesson. What judges it, films it and reads it is the library in the
 * page's module; this script draws and collects. Without a module there is no board, and the recorded scenes are as ever. */
(function () {
  var film = window.film, by = film.by, esc = film.esc, data = film.data, state = film.state, MARK = "18446744073709551615";
  var place = data.scenes.length, tasks = [], task = null, live = null, asked = 0, shown = false;
  var orders = [], past = [], future = [], opened = {}, judged = null, chosen = null;

  function bytesOf(text) { return Uint8Array.from(window.atob(text), function (c) { return c.charCodeAt(0); }); }
  function scene() { return data.scenes[place]; }
  function textOf(list) { return list.map(function (o) { return o.join(" "); }).join("\n") + "\n"; }
  function codeText(key) { return /^[A-Z]/.test(film.keyText(key)) ? film.keyText(key) : "#" + key; }

  /* ---- tasks: the tables and changes of the right scenes, and one's own */

  /* The codes of a scene's table, from the shown slots of its leaves. */
  function codesOf(s) {
    var codes = [];
    if (!s.ready) film.prepare(s);
    s.places.forEach(function (p, i) {
      for (var k = 0; p.level === 0 && p.words && k < 12; k++)
        if (s.first.kinds[i][0] === "r" && s.first.kinds[i][1 + k] === "s") codes.push({ key: p.words[8 + 2 * k], pointer: p.words[9 + 2 * k] });
    });
    return codes;
  }

  function taskOf(name, nodes, codes, sign, key, pointer) {
    var recording = (BigInt(pointer) & ((1n << 56n) - 1n)).toString(), code = codeText(key);
    var csv = codes.map(function (c) { return codeText(c.key) + "," + film.pointerText(c.pointer).replace(" ", ","); }).join("\n") + "\n";
    var title = (sign === "+" ? "Add " + code + " with recording " + recording + " to " : "Remove " + code + " from ") + codes.length + " codes";
    return { name: name, title: title, codes: codes, key: key, pointer: pointer, table: { nodes: nodes, csv: csv }, change: { sign: sign, code: code, recording: sign === "+" ? recording : "" } };
  }

  function findTasks() {
    data.scenes.forEach(function (s) {
      if (s.beside !== -1 || s.judge !== -1 || s.collections !== 1) return;
      var codes = codesOf(s), coded = codes.every(function (c) { return codeText(c.key)[0] !== "#"; });
      var name = !coded ? "worked" : codes.length === 3 ? "leaf" : codes.length === 11 ? "full" : "table";
      var t = taskOf(name, s.nodes, codes, s.change.kind === "add" ? "+" : "-", s.change.key, s.change.pointer);
      if (!tasks.some(function (o) { return o.title === t.title && o.table.csv === t.table.csv; })) tasks.push(t);
    });
    tasks.sort(function (a, b) { return a.codes.length - b.codes.length || (a.name === "worked") - (b.name === "worked"); });
  }

  function drawTasks() {
    by("task").innerHTML = tasks.map(function (t, i) { return '<option value="' + i + '">' + esc(t.title) + (t.codes.length === 11 ? ", a full leaf" : "") + "</option>"; }).join("")
      + '<option value="own">A table of your own</option>';
    by("task").value = String(Math.max(0, tasks.indexOf(task)));
  }

  function say(text) { by("verdict").innerHTML = '<p class="bad">' + esc(text.replace(/^catalogue: /, "").trim()) + "</p>"; }

  function ownTask() {
    var lines = by("own-codes").value.split("\n").map(function (l) { return l.trim().split(/[,;\t]/); }).filter(function (l) { return l.length > 1; }), codes = [];
    lines.forEach(function (l) {
      var key = film.readCode(l[0].replace(/"/g, "")), recording = l[1].replace(/[" ]/g, ""), access = ["open", "room", "closed"].indexOf((l[2] || "open").trim().toLowerCase());
      if (key !== null && access >= 0 && /^[0-9]+$/.test(recording)) codes.push({ key: key, pointer: (BigInt(access) << 56n | BigInt(recording)).toString() });
    });
    codes.sort(function (a, b) { return BigInt(a.key) < BigInt(b.key) ? -1 : 1; });
    var key = film.readCode(by("own-code").value), sign = by("own-sign").value, recording = by("own-recording").value.trim() || "0";
    if (codes.length === 0) return say("No line is a code and a recording, as AA0002600020,102.");
    if (codes.length > 100) return say("A board takes a table of at most 100 codes; these are " + codes.length + ".");
    if (key === null) return say("The change has no code: two letters, three letters or digits, seven digits.");
    if (sign === "+" && !/^[0-9]+$/.test(recording)) return say("The new code has no recording: a whole number.");
    var t = taskOf("own", Math.max(6, Math.ceil(codes.length / 4) + 4), codes, sign, key, sign === "+" ? recording : "0");
    if (tasks.length > 0 && tasks[tasks.length - 1].name === "own") tasks.pop();
    tasks.push(t);
    return start(t, []);
  }

  /* ---- the list */

  async function update(at) {
    var number = ++asked, began = window.performance.now(), answer = await live.board(task.table, task.change, textOf(orders));
    if (number !== asked) return;
    if (answer.status !== 0) { say(answer.said); return; }
    var got = JSON.parse(answer.text), s = got.scene, code = state.code;
    s.board = { opened: opened };
    s.words = got.words.split("\n");
    data.scenes.length = place;
    data.scenes.push(s);
    judged = got.judge;
    shown = false;
    film.openScene(place, false);
    state.code = code;
    film.go(at);
    by("verdict").dataset.took = (window.performance.now() - began).toFixed(1);
    drawVerdict();
  }

  function change(list, at) {
    past.push({ orders: orders, at: state.order });
    future = [];
    orders = list;
    closeChooser();
    return update(at);
  }

  function put(order) {
    var list = orders.slice();
    list.splice(state.order, 0, order);
    return change(list, state.order + 1);
  }

  function step(from, to) {
    if (from.length === 0) return;
    to.push({ orders: orders, at: state.order });
    var back = from.pop();
    orders = back.orders;
    update(back.at);
  }

  function drop() {
    if (state.order > 0) change(orders.filter(function (_, i) { return i !== state.order - 1; }), state.order - 1);
  }

  /* The order shown goes one place up or down. */
  function move(by) {
    var i = state.order - 1, k = i + by, list = orders.slice();
    if (i < 0 || k < 0 || k >= list.length) return;
    list[i] = orders[k];
    list[k] = orders[i];
    change(list, k + 1);
  }

  function drawTools() {
    by("undo").disabled = past.length === 0;
    by("redo").disabled = future.length === 0;
    by("drop").disabled = by("earlier").disabled = by("later").disabled = orders.length === 0;
    by("board-now").textContent = orders.length === 0 ? "Tap a word of a node to store there, or “flush” at the end of a line."
      : "The next order goes in behind order " + state.order + ". Tap an order in the list to go there.";
    if (!by("as-text").hidden && document.activeElement !== by("list-text")) by("list-text").value = scene().words.join("\n");
  }

  /* ---- the verdict */

  function hidden() { return state.guess && !shown; }

  function drawVerdict() {
    var s = scene(), out = by("verdict");
    state.asked = !hidden();
    if (hidden()) { out.innerHTML = "<p>Guess first: would a cut after any of your orders do no harm? Then press <b>judge</b>.</p>"; return; }
    if (judged.number === 0) {
      out.innerHTML = '<p class="good" data-judge="yes"><b>Yes.</b> A cut after any of your ' + orders.length + " orders leaves every code as before or as after.</p>";
      return;
    }
    if (judged.number !== 254) { say(judged.said); return; }
    if (judged.mistake === "not finished" && !shown) {
      out.innerHTML = '<p data-judge="no" data-mistake="not finished">Nothing is lost so far; the change is not finished.</p>';
      return;
    }
    var lines = judged.said.trim().split("\n"), order = judged.count > 0 ? " (" + s.words[judged.count - 1] + ")" : "";
    out.innerHTML = '<p class="bad" data-judge="no" data-count="' + judged.count + '" data-mistake="' + esc(judged.mistake) + '"><b>No, after order ' + judged.count + " of " + orders.length + "</b>"
      + esc(order) + ". " + (judged.mistake === "another" ? "" : "<b>" + esc(judged.mistake.replace(/^./, function (c) { return c.toUpperCase(); })) + ":</b> " + esc(judged.sentence))
      + lines.slice(1).map(function (l) { return "<br>" + esc(l.replace(/^./, function (c) { return c.toUpperCase(); })) + "."; }).join("") + "</p>"
      + (s.lost || s.unsound ? '<button type="button" data-go="bad">show that cut</button> ' : "") + '<button type="button" data-board="compare">beside the nearest right list</button>';
  }

  function judge() {
    shown = true;
    drawVerdict();
    film.show();
    var verdict = by("verdict");
    if (verdict.scrollIntoView) verdict.scrollIntoView({ block: "nearest" });
  }

  async function compare() {
    var number = ++asked, answer = await live.compare(task.table, task.change, textOf(orders));
    if (number !== asked) return;
    if (answer.status !== 0) { say(answer.said); return; }
    var got = JSON.parse(answer.text), at = state.order;
    shown = true;
    got.scenes.forEach(function (s, i) {
      s.board = { opened: opened };
      s.words = i === 0 ? scene().words : got.words.split("\n");
    });
    data.scenes.length = place;
    data.scenes.push(got.scenes[0], got.scenes[1]);
    film.openScene(place, false);
    if (got.whose !== 0) {
      film.prepare(got.scenes[1]);
      state.pair = { wrong: place, right: place + 1 };
    }
    state.asked = true;
    film.go(at);
    drawVerdict();
    if (got.whose === 0) by("verdict").innerHTML += "<p>Your list is right as it is: there is nothing nearer.</p>";
  }

  /* ---- what is stored */

  function button(value, text, more) {
    return '<button type="button" data-value="' + esc(value) + '">' + esc(text) + (more ? " <small>" + esc(more) + "</small>" : "") + "</button>";
  }

  function keys() {
    var s = scene(), all = task.codes.map(function (c) { return c.key; });
    if (all.indexOf(task.key) < 0) all.push(task.key);
    all.sort(function (a, b) { return BigInt(a) < BigInt(b) ? -1 : 1; });
    return all.map(function (k) { return button(k, film.short(s, k), k === task.key ? "the change’s" : ""); }).join("");
  }

  function recordings() {
    var all = task.codes.slice(), s = scene();
    if (task.change.sign === "+") all.push({ key: task.key, pointer: task.pointer });
    return all.map(function (c) { return button(c.pointer, film.pointerText(c.pointer), "of " + film.short(s, c.key)); }).join("");
  }

  function nodes() {
    return scene().places.map(function (p) { return p.node; }).sort(function (a, b) { return a - b; }).map(function (n) { return button(String(n), "node " + n); }).join("");
  }

  /* What a word may hold, the likelier first. */
  function valuesOf(word) {
    var within = (word - 8) % 32, node = Math.floor((word - 8) / 32) + 1, zero = button("0", "0"), mark = button(MARK, "MARK");
    if (word < 8) return nodes();
    var level = by("working-stage").querySelector('[data-word="' + (8 + 32 * (node - 1) + 2) + '"]'), inner = level && level.dataset.value !== "0";
    if (within === 0) return mark + nodes() + zero;
    if (within === 1) return nodes() + zero;
    if (within === 2) return button("0", "0", "a leaf") + button("1", "1") + button("2", "2");
    if (within === 3 || within % 2 === 0) return keys() + zero;
    return inner ? nodes() + zero + mark : recordings() + zero + mark;
  }

  function choose(word) {
    chosen = word;
    by("chooser-place").textContent = "Store in " + film.place(scene(), word) + ":";
    by("chooser-values").innerHTML = valuesOf(word);
    by("chooser-other").value = "";
    by("chooser").hidden = false;
    var first = by("chooser-values").querySelector("button");
    if (first) first.focus({ preventScroll: true });
  }

  function closeChooser() {
    if (by("chooser").hidden) return;
    by("chooser").hidden = true;
    var back = document.querySelector('#working-stage [data-word="' + chosen + '"]');
    chosen = null;
    if (back) back.focus({ preventScroll: true });
  }

  function storeOther() {
    var text = by("chooser-other").value.trim(), key = /^mark$/i.test(text) ? MARK : film.readCode(text);
    if (key !== null) put(["store", chosen, key]); else by("chooser-place").textContent = text + " is no code, no number and not MARK.";
  }

  /* ---- text and files */

  async function takeText(text) {
    var answer = await live.board(task.table, task.change, text);
    by("text-said").textContent = answer.status === 0 ? "" : answer.said.replace(/^catalogue: (your list, )?/, "");
    if (answer.status !== 0) return;
    change(JSON.parse(answer.text).scene.orders, JSON.parse(answer.text).scene.orders.length);
  }

  function save() {
    var c = task.change, head = "# catalogue judge " + task.name + ".cat drawing.txt " + c.sign + " " + c.code + (c.recording ? " " + c.recording : "") + "\n";
    head += task.table.csv.trim().split("\n").map(function (l) { return "# table " + l + "\n"; }).join("");
    var link = document.createElement("a");
    link.href = window.URL.createObjectURL(new window.Blob([head + scene().words.join("\n") + "\n"], { type: "text/plain" }));
    link.download = "drawing.txt";
    link.click();
  }

  /* A saved list has its table and its change above its orders. */
  function openText(text) {
    var named = /^# catalogue judge (\S+)\.cat \S+ ([+-]) (\S+) ?(\d*)/m.exec(text), rows = text.match(/^# table .*$/gm);
    if (named && rows) {
      by("own-codes").value = rows.map(function (r) { return r.slice(8); }).join("\n");
      by("own-sign").value = named[2];
      by("own-code").value = named[3];
      by("own-recording").value = named[4];
    }
    var same = named && tasks.filter(function (t) { return t.change.code === named[3] && t.change.sign === named[2] && (!rows || t.table.csv.trim() === by("own-codes").value.trim()); })[0];
    if (same) start(same, []).then(function () { takeText(text); });
    else if (named && rows && ownTask()) takeText(text);
    else takeText(text);
    by("as-text").hidden = false;
  }

  function readFile(input, take) {
    var file = input.files[0];
    if (file) file.text().then(take);
    input.value = "";
  }

  /* ---- a worksheet: the table as it is, empty nodes, room for the orders; with the solution or without */

  function sheetNode(title, words) {
    function cell(i) { return "<td>" + (words && words[i] !== undefined ? esc(words[i]) : "") + "</td>"; }
    var rows = ["<tr><th>left</th><th>sibling</th><th>level</th><th>fence</th></tr><tr>" + [0, 1, 2, 3].map(cell).join("") + "</tr>"];
    for (var r = 0; r < 3; r++) {
      var slots = [0, 1, 2, 3].map(function (i) { return 4 * r + i; });
      rows.push("<tr>" + slots.map(function (i) { return "<th>slot " + i + "</th>"; }).join("") + "</tr><tr class=\"keys\">" + slots.map(function (i) { return cell(8 + 2 * i); }).join("") + "</tr><tr>"
        + slots.map(function (i) { return cell(9 + 2 * i); }).join("") + "</tr>");
    }
    return "<table><caption>" + title + "</caption>" + rows.join("") + "</table>";
  }

  async function sheet(solved) {
    var s = scene(), used = s.places.filter(function (p, i) { return s.first.kinds[i][0] === "r"; }), out = "<h1>" + esc(task.title) + "</h1>"
      + "<p>Name: ______________________ &nbsp; Write down every store and every flush, in order. A line of a node is one row of slots. A cut may come after any of your orders.</p><div class=\"nodes\">";
    used.forEach(function (p) {
      out += sheetNode("node " + p.node + ", before", p.words.map(function (v, i) {
        return v === "0" ? "" : v === MARK ? "MARK" : i === 3 || (i >= 8 && i % 2 === 0) ? film.short(s, v) : i >= 9 && p.level === 0 ? film.pointerText(v) : v;
      }));
    });
    for (var n = 0; n < (task.codes.length > 10 ? 3 : 1); n++) out += sheetNode("node ___, after", null);
    out += "</div>";
    if (solved) {
      var answer = await live.ours(task.table, task.change, false);
      out += "<h2>One right list</h2><ol class=\"orders\">" + answer.text.trim().split("\n").map(function (l) { return "<li>" + esc(l) + "</li>"; }).join("") + "</ol>";
    } else {
      out += "<ol class=\"orders empty\">" + new Array(task.codes.length > 10 ? 36 : 16).fill("<li></li>").join("") + "</ol>";
    }
    by("sheet").innerHTML = out;
    document.body.classList.add("sheet");
    window.print();
  }

  /* ---- beginning */

  function start(t, list) {
    task = t;
    orders = list;
    past = [];
    future = [];
    opened = {};
    state.code = "";
    by("code").value = "";
    by("own").hidden = true;
    drawTasks();
    return update(list.length);
  }

  function open() {
    film.stop();
    document.body.classList.add("board");
    by("board").hidden = false;
    by("board-guess").checked = state.guess;
    if (task) update(state.order > orders.length ? orders.length : 0); else start(tasks[0], []);
  }

  function close() {
    closeChooser();
    document.body.classList.remove("board");
    by("board").hidden = true;
    data.scenes.length = place;
    film.enter(Number(by("scene").value) || 0);
  }

  function click(event) {
    var from = event.target.closest && event.target.closest("button");
    if (!from || !document.body.classList.contains("board")) return;
    var d = from.dataset;
    if (d.word !== undefined && from.closest("#working-stage")) choose(Number(d.word));
    else if (d.flush !== undefined) put(["flush", Number(d.flush)]);
    else if (d.use !== undefined) { opened[d.use] = true; update(state.order); }
    else if (d.value !== undefined && from.closest("#chooser")) put(["store", chosen, d.value]);
    else if (d.board === "compare") compare();
  }

  function begin() {
    findTasks();
    if (tasks.length === 0) return;
    by("to-board").hidden = false;
    var on = { "to-board": open, "to-film": close, undo: function () { step(past, future); }, redo: function () { step(future, past); }, drop: drop, earlier: function () { move(-1); },
      later: function () { move(1); }, clear: function () { change([], 0); }, judge: judge, compare: compare, save: save, "text-take": function () { takeText(by("list-text").value); },
      "text-open": function () { by("as-text").hidden = !by("as-text").hidden; drawTools(); }, "chooser-close": closeChooser, "chooser-store": storeOther, "own-use": ownTask,
      "sheet-empty": function () { sheet(false); }, "sheet-solved": function () { sheet(true); } };
    Object.keys(on).forEach(function (id) { by(id).addEventListener("click", on[id]); });
    by("task").addEventListener("change", function () {
      if (by("task").value === "own") by("own").hidden = false; else start(tasks[Number(by("task").value)], []);
    });
    by("own-file").addEventListener("change", function () { readFile(by("own-file"), function (text) { by("own-codes").value = text; }); });
    by("open-list").addEventListener("change", function () { readFile(by("open-list"), openText); });
    by("board-guess").addEventListener("change", function () { state.guess = by("board-guess").checked; shown = false; drawVerdict(); film.show(); });
    film.after = function () { if (document.body.classList.contains("board") && scene()) drawTools(); };
    document.addEventListener("click", click);
    document.addEventListener("keydown", function (e) { if (e.key === "Escape") closeChooser(); });
    window.addEventListener("afterprint", function () { document.body.classList.remove("sheet"); });
    window.board = { live: live, tasks: tasks, orders: function () { return orders; }, open: open, update: update };
    if (window.location.hash === "#board") open();
  }

  var inside = by("module").textContent.trim();
  if (!inside || typeof WebAssembly === "undefined" || typeof window.atob !== "function") return;
  liveFrom(bytesOf(inside)).then(function (made) { live = made; begin(); }, function () { /* The recorded scenes are there. */ });
})();
