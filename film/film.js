"use strict";
/* Draws the states that the program has worked out. There is no tree here: an image's verdict, map, slots and ways are looked up. */
(function () {
  var data = JSON.parse(document.getElementById("data").textContent);
  var MARK = "18446744073709551615";
  var STATE_WIDTH = 52, FOLDED_WIDTH = 92, TITLE = 20, GAP = 30, ROW_GAP = 34;
  /* A line of a node, with its rule; on a drawing board its words are large enough to be tapped. */
  var LINE = 43, BOARD_LINE = 63;
  var DIGITS = "0123456789ABCDEFGHIJKLMNOPQRSTUVWXYZabcdefghijklmnopqrstuvwxyz-_";
  var state = { scene: 0, order: 0, kept: null, code: "", pair: null, guess: false, asked: false };
  var playing = null;

  function by(id) { return document.getElementById(id); }
  function esc(text) {
    return String(text).replace(/[&<>"]/g, function (c) { return { "&": "&amp;", "<": "&lt;", ">": "&gt;", '"': "&quot;" }[c]; });
  }
  function plural(n, one, many) { return n + " " + (n === 1 ? one : many || one + "s"); }

  /* ---- codes: a key is read and written as document 01 says */

  function keyText(key) {
    var k = BigInt(key), first = k / 10000000n, last = k % 10000000n;
    if (first >= 36n ** 5n) return key;
    var head = first.toString(36).toUpperCase().padStart(5, "0");
    if (!/^[A-Z]{2}/.test(head)) return key;
    return head + last.toString().padStart(7, "0");
  }

  /* The key of what was typed, as text; null if it is no code and no number. */
  function readCode(text) {
    var plain = text.replace(/[- ]/g, "").toUpperCase();
    if (/^#?[0-9]+$/.test(plain)) {
      var number = BigInt(plain.replace("#", ""));
      return number <= BigInt(MARK) ? number.toString() : null;
    }
    if (!/^[A-Z]{2}[A-Z0-9]{3}[0-9]{7}$/.test(plain)) return null;
    var key = 0n;
    for (var i = 0; i < 5; i++) key = 36n * key + BigInt(parseInt(plain[i], 36));
    return (key * 10000000n + BigInt(plain.slice(5))).toString();
  }

  function pointerText(pointer) {
    if (pointer === MARK) return "MARK";
    var p = BigInt(pointer), access = p >> 56n, names = ["", " room", " closed"];
    return (p & ((1n << 56n) - 1n)).toString() + (access < 3n ? names[Number(access)] : " class " + access);
  }

  /* ---- a scene's lines, and what a cut may leave: document 01's rule */

  function prepare(s) {
    var lines = {}, rank = [], lineOf = [], stored = {};
    s.orders.forEach(function (o) { if (o[0] === "store") lines[Math.floor(o[1] / 8)] = true; });
    s.lines = Object.keys(lines).map(Number).sort(function (a, b) { return a - b; });
    s.orders.forEach(function (o, i) {
      var line = o[0] === "store" ? Math.floor(o[1] / 8) : o[0] === "flush" ? o[1] : -1;
      lineOf[i] = s.lines.indexOf(line);
      if (o[0] === "store") rank[i] = stored[line] = (stored[line] || 0) + 1;
    });
    s.lineOf = lineOf;
    s.rank = rank;
    s.prefix = prefixOf(s);
    s.long = codeTexts(s).some(function (t) { return t.length - s.prefix.length > 6; });
    s.cell = s.long ? 60 : 46;
    s.wide = 4 * s.cell + STATE_WIDTH;
    s.tall = TITLE + 4 * (s.board ? BOARD_LINE : LINE);
    s.first = imageOf(s, s.lines.map(function () { return 0; }));
    if (s.board) fold(s);
    layOut(s);
    s.ready = true;
  }

  /* On a board a free node is narrow until it is used. */
  function fold(s) {
    s.places.forEach(function (p, i) {
      var used = s.first.kinds[i][0] === "r" || s.board.opened[p.node]
        || s.orders.some(function (o) { return o[0] === "store" && o[1] >= 8 && Math.floor((o[1] - 8) / 32) + 1 === p.node; });
      p.narrow = !used;
    });
  }

  /* After c orders, by line: the stores that memory has for certain, and those that were made. */
  function at(s, c) {
    var flushed = s.lines.map(function () { return 0; }), stored = flushed.slice();
    for (var i = 0; i < c; i++) {
      var line = s.lineOf[i];
      if (line < 0) continue;
      if (s.orders[i][0] === "store") stored[line] = s.rank[i]; else flushed[line] = stored[line];
    }
    return { flushed: flushed, stored: stored };
  }

  /* The four numbers of the image that holds so many stores of each line; null if this page has not worked it out. */
  function imageOf(s, kept) {
    var birth = 0;
    s.orders.forEach(function (o, i) { if (o[0] === "store" && s.rank[i] <= kept[s.lineOf[i]]) birth = i + 1; });
    var then = at(s, birth), place = 0, lacking = [], all = 1, before = 1, found = 0;
    s.lines.forEach(function (_, l) {
      if (birth === 0 || l === s.lineOf[birth - 1] || then.stored[l] === then.flushed[l]) return;
      var choices = then.stored[l] - then.flushed[l], chosen = kept[l] - then.flushed[l];
      place = place * (choices + 1) + chosen;
      if (chosen < choices) { lacking.push(l); found = before + chosen; }
      before += choices;
      all *= chosen === 0 ? 1 : 0;
    });
    if (s.some.indexOf(birth) >= 0) {
      if (lacking.length > 0 && s.images[birth].length === 4) return null;
      if (lacking.length > 1 && all === 0) return null;
      place = lacking.length > 1 ? s.images[birth].length / 4 - 1 : lacking.length === 1 ? found : 0;
    }
    var four = s.images[birth].slice(4 * place, 4 * place + 4);
    return { sound: s.sound[four[0]], map: s.maps[four[1]], row: s.rows[four[2]], kinds: s.kinds[four[3]].split("|") };
  }

  /* The words of the nodes drawn, and of the header, with so many stores of each line. */
  function wordsOf(s, kept) {
    var words = {};
    s.header.forEach(function (v, i) { words[i] = v; });
    s.places.forEach(function (p) {
      if (p.words) p.words.forEach(function (v, i) { words[8 + 32 * (p.node - 1) + i] = v; });
    });
    s.orders.forEach(function (o, i) { if (o[0] === "store" && s.rank[i] <= kept[s.lineOf[i]]) words[o[1]] = o[2]; });
    return words;
  }

  /* The way that the program found for a key in an image; null for a key that this page does not hold. */
  function wayOf(s, image, key) {
    var k = BigInt(key), low = 0, high = s.marks.length;
    if (k < BigInt(s.low) || k > BigInt(s.high)) return null;
    while (low + 1 < high) {
      var middle = (low + high) >> 1;
      if (BigInt(s.marks[middle]) <= k) low = middle; else high = middle;
    }
    var number = 0;
    for (var i = 0; i < 3; i++) number = 64 * number + DIGITS.indexOf(image.row[3 * low + i]);
    var way = s.ways[number], steps = [];
    for (i = 0; i < way[3].length; i += 2) steps.push({ node: way[3][i], by: way[3][i + 1] });
    return { number: way[0], value: way[1], slot: way[2], steps: steps };
  }

  /* ---- where things stand */

  /* The codes in the nodes drawn, and those that are stored. */
  function codeTexts(s) {
    var keys = s.orders.filter(function (o) { return o[0] === "store" && isKey(o[1]); }).map(function (o) { return o[2]; });
    s.places.forEach(function (p) {
      if (p.words) keys = keys.concat(p.words.filter(function (_, i) { return isKey(8 + i); }));
    });
    return keys.map(keyText).filter(function (t) { return /^[A-Z]{2}/.test(t); });
  }

  function isKey(word) {
    var within = (word - 8) % 32;
    return word >= 8 && (within === 3 || (within >= 8 && within % 2 === 0));
  }

  /* Codes of a scene may begin alike: nodes show the rest. */
  function prefixOf(s) {
    var texts = codeTexts(s);
    if (texts.length < 2) return "";
    var prefix = texts.reduce(function (a, b) {
      var n = 0;
      while (n < a.length && a[n] === b[n]) n++;
      return a.slice(0, n);
    });
    return prefix.length < 5 ? "" : prefix.slice(0, 9);
  }

  function short(s, key) {
    var text = keyText(key);
    return s.prefix && text.indexOf(s.prefix) === 0 ? text.slice(s.prefix.length) : text;
  }

  /* A code too long for a cell goes onto two rows. */
  function twoRows(s, key) {
    var text = short(s, key);
    return s.long && /^[A-Z]{2}.{10}$/.test(text) ? { above: text.slice(0, 5), text: text.slice(5) } : { above: "", text: text };
  }

  function layOut(s) {
    var rows = {}, top = 50;
    s.places.forEach(function (p) { (rows[p.level] = rows[p.level] || []).push(p); });
    var levels = Object.keys(rows).map(Number).sort(function (a, b) { return b - a; });
    function width(p) { return p.words && !p.narrow ? s.wide : FOLDED_WIDTH; }
    var widths = levels.map(function (l) { return rows[l].reduce(function (sum, p) { return sum + width(p) + GAP; }, -GAP); });
    s.width = Math.max.apply(null, widths.concat([s.board ? s.wide : 1.4 * s.wide])) + 28;
    levels.forEach(function (l, i) {
      var left = (s.width - widths[i]) / 2;
      rows[l].forEach(function (p, k) {
        p.x = left;
        p.y = top;
        p.next = rows[l][k + 1] || null;
        left += width(p) + GAP;
      });
      top += s.tall + ROW_GAP;
    });
    s.height = top - ROW_GAP + 6;
  }

  function placeOf(s, node) {
    return s.places.find(function (p) { return p.node === Number(node); });
  }

  /* ---- words for people */

  function place(s, word) {
    if (word < 8) return word === 1 ? "header, the root's number" : word === 3 ? "header, the root's number of collection 2" : "header, word " + word;
    var node = Math.floor((word - 8) / 32) + 1, within = (word - 8) % 32;
    if (within < 8) return "node " + node + ", " + (["left", "sibling", "level", "fence"][within] || "word " + within);
    return "node " + node + ", slot " + ((within - 8) >> 1) + ", " + (within % 2 ? "pointer" : "key");
  }

  function isInner(s, node) {
    var p = placeOf(s, node);
    return Boolean(p && p.level > 0);
  }

  function value(s, word, v) {
    var within = (word - 8) % 32, node = Math.floor((word - 8) / 32) + 1;
    if (word < 8) return word === 1 || word === 3 ? "node " + v : v;
    if (within === 0) return v === MARK ? "MARK, as in every leaf" : v === "0" ? "0" : "node " + v;
    if (within === 1) return v === "0" ? "none" : "node " + v;
    if (isKey(word)) return v === "0" ? "0" : keyText(v);
    if (within < 8) return v;
    if (v === "0") return "0, the end of the slots";
    if (v === MARK) return "MARK, as left: the slot is hidden";
    return isInner(s, node) ? "node " + v : "recording " + pointerText(v);
  }

  function lineText(line) {
    if (line === 0) return "the header";
    var part = (line - 1) % 4, node = Math.floor((line - 1) / 4) + 1;
    return "node " + node + ", " + (part === 0 ? "left to fence" : "slots " + (4 * part - 4) + " to " + (4 * part - 1));
  }

  function orderText(s, o) {
    if (o[0] === "store") return "store " + place(s, o[1]) + " := " + value(s, o[1], o[2]);
    return o[0] === "flush" ? "flush line " + o[1] + " (" + lineText(o[1]) + ")" : "barrier, for docks whose processor needs it";
  }

  function lineShort(line) {
    if (line === 0) return "header";
    var part = (line - 1) % 4, node = Math.floor((line - 1) / 4) + 1;
    return "n" + node + (part === 0 ? " head" : " s" + (4 * part - 4) + "-" + (4 * part - 1));
  }

  /* For the list at the side. */
  function orderShort(s, o) {
    if (o[0] === "barrier") return "barrier";
    if (o[0] === "flush") return "flush " + lineShort(o[1]);
    var word = o[1], within = (word - 8) % 32, node = Math.floor((word - 8) / 32) + 1;
    if (word < 8) return "header " + (word === 1 ? "root" : word === 3 ? "root 2" : "word" + word) + "=" + o[2];
    var v = o[2], leaf = within >= 8 && !isInner(s, node);
    if (isKey(word) && v !== "0") v = s.long ? "…" + keyText(v).slice(-7) : short(s, v);
    else if (v === MARK || leaf) v = pointerText(v);
    var part = within < 8 ? ["left", "sibling", "level", "fence"][within] || "word" + within
      : "s" + ((within - 8) >> 1) + (within % 2 ? " ptr" : " key");
    return "n" + node + " " + part + "=" + v;
  }

  function titleOf(s) { return s.title + (s.own ? "" : " (" + s.list + ")"); }

  /* Counts, verdicts and the right list wait until they are asked for. */
  function hides(s) { return (state.guess || (Boolean(s.ask) && !s.answered)) && !state.asked; }

  function momentText(s, c) {
    var head = "Order " + c + (hides(s) ? ": " : " of " + s.orders.length + ": ");
    return head + (c === 0 ? "before the first order" : orderText(s, s.orders[c - 1])) + (c === s.orders.length && c > 0 ? " — the last" : "");
  }

  function mapText(s, map) {
    var code = esc(keyText(s.change.key)), adds = s.change.kind === "add";
    if (map[0] === "old" && s.change.kind === "repair") return "<b>Map: unchanged.</b> Every code leads where it did.";
    if (map[0] === "old") return "<b>Map: the old one.</b> " + code + (adds ? " is absent" : " is still there")
      + "; every other code leads where it did.";
    var led = adds ? code + " leads to recording " + esc(pointerText(s.change.pointer)) : code + " is absent";
    if (map[0] === "new") return "<b>Map: the new one.</b> " + led + "; every other code leads where it did.";
    return "<b>Map: neither old nor new.</b> " + plural(map[1], "code leads", "codes lead") + " elsewhere:";
  }

  /* The verdict in a class's words. */
  function plainText(s, image) {
    var n = image.map[1], broken = image.sound.number !== 0, adds = s.change.kind === "add";
    if (image.map[0] === "neither") {
      var gone = image.map[2].every(function (d) { return d[4] !== 0; });
      return plural(n, "code") + (gone ? n === 1 ? " is lost" : " are lost" : n === 1 ? " leads elsewhere" : " are lost or lead elsewhere")
        + (broken ? ", and the tree itself is broken." : ", though the tree itself is in order.");
    }
    if (broken) return "No code is lost, but the tree itself is broken: every later change is refused.";
    var there = image.map[0] === "new" && s.change.kind !== "repair" ? adds ? ", the new one too" : ", and the one to remove is gone" : "";
    return "Every code is found" + there + (image.sound.letter ? "; something is unfinished, and nobody sees it." : "; nothing is unfinished.");
  }

  function foundText(number, pointer) {
    if (number === 0) return "recording " + pointerText(pointer);
    return number === 255 ? "absent" : number === 3 ? "no way (refused with 3)" : "refused with " + number;
  }

  function lostTable(s, map) {
    var items = map[2].slice(0, 12).map(function (d) {
      return "<li>" + esc(keyText(d[1])) + ": " + (d[2] === "0" ? "absent" : esc(pointerText(d[2]))) + " &#10132; <b>" + esc(foundText(d[4], d[3]))
        + "</b></li>";
    });
    var more = map[1] - items.length;
    return '<ul class="lost">' + items.join("") + (more > 0 ? "<li>and " + plural(more, "code") + " more</li>" : "") + "</ul>";
  }

  function soundText(v) {
    if (v.number !== 0) return '<p class="bad"><b>NOT SOUND.</b> Every change of this table is refused with ' + v.number + ".</p>";
    if (!v.letter) return '<p class="good"><b>Sound and settled:</b> nothing is unfinished.</p>';
    return '<p class="good"><b>Sound, unfinished:</b> ' + esc(v.left) + ".</p>";
  }

  function repairText(s, v) {
    if (v.number !== 0) return '<p class="repair"><b>Repair</b> is refused: it does not know what was meant.</p>';
    if (!v.letter) return '<p class="repair"><b>Repair</b> has nothing to do.</p>';
    return '<p class="repair"><b>Repair will</b> make ' + plural(v.repair.length, "order") + ": "
      + esc(v.repair.map(function (o) { return orderShort(s, o); }).join("; ")) + ".</p>";
  }

  function stepText(step, i) {
    if (i === 0) return "starts at the root, node " + step.node;
    if (step.by === -3) return "moves to the sibling, node " + step.node;
    return (step.by === -1 ? "goes down by left" : "goes down by slot " + step.by) + " to node " + step.node;
  }

  function wayText(s, way, key) {
    var code = esc(keyText(key));
    if (!way) return '<p class="way">This page holds the ways of codes from ' + esc(keyText(s.low)) + " to " + esc(keyText(s.high)) + ".</p>";
    var end = way.number === 0 ? "and finds it in slot " + way.slot + ": <b>recording " + esc(pointerText(way.value)) + "</b>"
      : way.number === 255 ? "where it is <b>absent</b>; " + (way.value ? "the next code up is " + esc(keyText(way.value)) : "no code is higher")
        : way.number === 3 ? "and <b>is lost</b>: refused with 3" : "<b>is refused</b> with " + way.number;
    return '<p class="way"><b>Search for ' + code + ":</b> " + way.steps.map(stepText).map(esc).join(", ") + (way.steps.length ? ", " : "") + end
      + ". <b>No word changes:</b> a search stores nothing and tidies nothing.</p>";
  }

  /* ---- drawing a table */

  function lineState(s, moment, kept, line, memory) {
    var l = s.lines.indexOf(line);
    if (l < 0 || moment.stored[l] === 0) return { kind: "", text: "" };
    var open = moment.stored[l] - moment.flushed[l];
    if (open === 0) return { kind: "flushed", text: "flushed" };
    return { kind: "dirty", text: memory ? kept[l] - moment.flushed[l] + " of " + open + " written" : "dirty: " + open };
  }

  function cellWord(view, word, text, more) {
    var classes = [more];
    if (view.stored === word) classes.push("stored");
    if (view.unsure[word]) classes.push("unsure");
    var rest = ' data-word="' + word + '" data-value="' + view.words[word] + '"';
    if (!view.tap) return '<b class="' + classes.join(" ").trim() + '"' + rest + ">" + esc(text) + "</b>";
    return '<button type="button" class="word ' + classes.join(" ").trim() + '"' + rest + ' aria-label="' + esc(place(view.scene, word) + ": " + value(view.scene, word, view.words[word])
      + ". Store here") + '">' + esc(text) + "</button>";
  }

  /* On a board the mark at the end of a line flushes it. */
  function stateMark(view, line, st) {
    if (!view.tap) return '<span class="state">' + esc(st.text) + "</span>";
    return '<button type="button" class="state" data-flush="' + line + '" aria-label="flush ' + esc(lineText(line)) + '">' + (st.text ? esc(st.text) + (line === 0 ? " " : "<br>") : "") + "flush</button>";
  }

  function headLine(s, view, p, start) {
    var names = ["left", "sibling", "level", "fence"];
    return names.map(function (name, i) {
      var v = view.words[start + i], two = i === 3 && v !== "0" ? twoRows(s, v) : { above: "", text: v };
      var text = i === 0 && v === MARK ? "MARK" : two.text;
      return '<span class="cell" role="cell"><i>' + name + (two.above ? " " + two.above : "") + "</i>" + cellWord(view, start + i, text, "")
        + (view.tap ? "" : cellWord(view, start + 4 + i, view.words[start + 4 + i], "rest")) + "</span>";
    }).join("");
  }

  var KINDS = { s: "", h: "H", t: "T", o: "S", ".": "" };
  var KIND_WORDS = { s: "shown", h: "hidden", t: "trailing, ignored", o: "stale: behind the end", ".": "free" };

  function slotCell(s, view, p, kinds, slot) {
    var word = 8 + 32 * (p.node - 1) + 8 + 2 * slot, kind = kinds[1 + slot], key = view.words[word], pointer = view.words[word + 1];
    var taken = view.way && view.way.slot === slot && view.last === p.node;
    var text = pointerText(pointer).replace(" room", "r").replace(" closed", "c");
    if (p.level > 0 && pointer !== MARK && pointer !== "0") text = "→" + pointer;
    var two = key === "0" ? { above: "", text: kind === "." ? "·" : "0" } : twoRows(s, key);
    var title = "slot " + slot + ", " + KIND_WORDS[kind] + ": key " + keyText(key) + ", pointer " + pointerText(pointer);
    var above = s.long ? "<i>" + (two.above || "&nbsp;") + "</i>" : "";
    return '<span class="cell ' + (kind === "." ? "free" : kind) + (taken ? " taken" : "") + '" role="cell" title="' + title + '">' + above
      + cellWord(view, word, two.text, "key")
      + cellWord(view, word + 1, kind === "." && pointer === "0" ? "·" : text, "") + (KINDS[kind] ? "<em>" + KINDS[kind] + "</em>" : "") + "</span>";
  }

  function node(s, view, p, kinds) {
    var size = p.words ? ";width:" + s.wide + "px;--cell:" + s.cell + "px" : "", style = ' style="left:' + p.x + "px;top:" + p.y + "px" + size + '"';
    var reached = kinds[0] === "r", step = view.steps[p.node];
    var badge = step ? '<span class="badge" aria-hidden="true">' + step + "</span>" : "", passed = step ? " passed" : "";
    if (!p.words) return '<div class="node folded' + passed + '"' + style + "><h3>node " + p.node + "</h3>no order<br>stores here" + badge + "</div>";
    var start = 8 + 32 * (p.node - 1), before = s.first.kinds[s.places.indexOf(p)][0] === "r";
    if (p.narrow)
      return '<div class="node folded free" data-node="' + p.node + '"' + style.replace(/;width:.*"/, '"') + "><h3>node " + p.node + "</h3>free"
        + (view.tap ? '<button type="button" data-use="' + p.node + '" aria-label="use the free node ' + p.node + '">use it</button>' : "") + "</div>";
    if (!reached && !before && !view.begun[p.node] && !s.board)
      return '<div class="node free" data-node="' + p.node + '"' + style + "><h3>node " + p.node + " <span>free</span></h3></div>";
    var root = view.words[1] === String(p.node) || (s.collections === 2 && view.words[3] === String(p.node));
    var what = before ? "nothing links it now" : "not linked yet", of = s.collections === 2 ? ", collection " + p.collection : "";
    if (reached) what = (root ? "the root, " : "") + (p.level === 0 ? "leaf" : "level " + p.level) + of;
    if (reached && root && of) what = "the root of collection " + p.collection;
    var lines = [0, 1, 2, 3].map(function (part) {
      var st = view.line(1 + 4 * (p.node - 1) + part);
      var slots = [0, 1, 2, 3].map(function (i) { return 4 * part - 4 + i; });
      var cells = part === 0 ? headLine(s, view, p, start) : slots.map(function (i) { return slotCell(s, view, p, kinds, i); }).join("");
      return '<div class="line ' + st.kind + '" role="row">' + cells + stateMark(view, 1 + 4 * (p.node - 1) + part, st) + "</div>";
    });
    return '<div class="node' + (reached ? "" : " alone") + passed + '" role="table" aria-label="node ' + p.node + ", " + what + '" data-node="' + p.node + '" data-kinds="' + kinds + '"' + style
      + "><h3>node " + p.node + " <span>" + what + "</span></h3>"
      + lines.join("") + badge + "</div>";
  }

  function arrow(from, to, kind) {
    var bend = 16;
    var path = "M" + from.x + " " + from.y + " L" + (to.x - 7) + " " + to.y;
    if (kind === "down") path = "M" + [from.x, from.y, "C" + from.x, from.y + bend, to.x, to.y - bend, to.x, to.y - 7].join(" ");
    return '<path d="' + path + '" fill="none" stroke="currentColor" stroke-width="' + (kind === "down" ? 2 : 2.5) + '"'
      + (kind === "down" ? "" : ' stroke-dasharray="6 3"') + ' marker-end="url(#head-' + kind + ')"/>';
  }

  /* Ways of a node that is reached: its children by left and by shown slots, and its sibling. */
  function arrows(s, view, p, kinds) {
    var start = 8 + 32 * (p.node - 1), out = [];
    if (!p.words || kinds[0] !== "r") return "";
    function down(v, x) {
      var child = placeOf(s, v);
      if (child) out.push(arrow({ x: x, y: p.y + s.tall }, { x: child.x + (child.words ? s.wide : FOLDED_WIDTH) / 2, y: child.y }, "down"));
    }
    if (p.level > 0) down(view.words[start], p.x + 12);
    for (var i = 0; p.level > 0 && i < 12; i++)
      if (kinds[1 + i] === "s") down(view.words[start + 9 + 2 * i], p.x + s.cell * (i % 4) + s.cell / 2 + 9 * Math.floor(i / 4));
    var beside = placeOf(s, view.words[start + 1]);
    if (beside && beside.x > p.x && beside.y === p.y)
      out.push(arrow({ x: p.x + s.wide, y: p.y + TITLE + 19 }, { x: beside.x, y: beside.y + TITLE + 19 }, "side"));
    return out.join("");
  }

  var HEADS = ["down", "side"].map(function (kind) {
    return '<marker id="head-' + kind
      + '" markerWidth="9" markerHeight="9" refX="5" refY="4" orient="auto" markerUnits="userSpaceOnUse"><path d="M0 0 L8 4 L0 8 z" fill="currentColor"/></marker>';
  }).join("");

  /* The table's first line: its eight words. */
  function header(s, view) {
    var st = view.line(0), names = ["", "root node", "nodes", s.collections === 2 ? "root node of collection 2" : ""];
    var words = s.header.map(function (_, i) {
      return (names[i] ? "<i>" + names[i] + "</i>" : "") + cellWord(view, i, view.words[i], i < 3 || names[i] ? "" : "rest");
    });
    if (view.tap) words = [1, 3].filter(function (i) { return names[i]; }).map(function (i) { return words[i]; });
    return '<div class="header ' + st.kind + '" role="group" aria-label="the table’s header" style="width:' + (s.width - 24) + 'px"><span>header</span>' + words.join("")
      + stateMark(view, 0, st) + "</div>";
  }

  function table(s, view) {
    var kinds = {};
    s.places.forEach(function (p, i) { kinds[p.node] = view.image.kinds[i]; });
    view.kinds = kinds;
    var svg = '<svg width="' + s.width + '" height="' + s.height + '" aria-hidden="true"><defs>' + HEADS + "</defs>"
      + s.places.map(function (p) { return arrows(s, view, p, kinds[p.node]); }).join("") + "</svg>";
    var nodes = s.places.map(function (p) { return node(s, view, p, kinds[p.node]); }).join("");
    return '<div class="inner' + (s.board ? " large" : "") + '" style="width:' + s.width + "px;height:" + s.height + 'px">' + header(s, view) + nodes + svg + "</div>";
  }

  /* What one side shows: the table with so many stores of each line. */
  function viewOf(s, moment, kept, memory) {
    var image = imageOf(s, kept), order = s.orders[state.order - 1];
    var view = { scene: s, tap: Boolean(s.board) && !memory, words: wordsOf(s, kept), image: image, unsure: {}, begun: {}, steps: {}, stored: -1, way: null, last: 0 };
    s.orders.slice(0, state.order).forEach(function (o, i) {
      if (o[0] !== "store") return;
      if (o[1] >= 8) view.begun[Math.floor((o[1] - 8) / 32) + 1] = true;
      if (memory && s.rank[i] > moment.flushed[s.lineOf[i]]) view.unsure[o[1]] = true;
    });
    if (order && order[0] === "store" && s.rank[state.order - 1] <= kept[s.lineOf[state.order - 1]]) view.stored = order[1];
    view.line = function (line) { return lineState(s, moment, kept, line, memory); };
    var key = readCode(state.code);
    if (image && key !== null && state.code) {
      view.way = wayOf(s, image, key);
      if (view.way) view.way.steps.forEach(function (step, i) { view.steps[step.node] = i + 1; view.last = step.node; });
    }
    return view;
  }

  function said(s, view, memory) {
    var image = view.image;
    if (hides(s)) return '<p class="hidden-answer">What does a search find now? Guess first.</p>';
    if (!image) return "<p>This choice is one of more than this page holds.</p>";
    var bad = image.map[0] === "neither", wrong = bad || image.sound.number !== 0;
    var out = '<p class="plain ' + (wrong ? "bad" : "good") + '"><b>' + esc(plainText(s, image)) + "</b></p>"
      + '<p class="' + (bad ? "bad" : "good") + '">' + mapText(s, image.map) + "</p>"
      + (bad ? lostTable(s, image.map) : "");
    out += soundText(image.sound);
    if (memory) out += repairText(s, image.sound);
    if (state.code) out += readCode(state.code) === null ? noCode(state.code) : wayText(s, view.way, readCode(state.code));
    return out;
  }

  function noCode(text) {
    return '<p class="way">' + esc(text) + " is not a code: two letters, three letters or digits, seven digits; or # and a number.</p>";
  }

  /* The verdict in a word, beside the heading. */
  function tagText(s, image) {
    if (!image || hides(s)) return "";
    var bad = image.map[0] === "neither" || image.sound.number !== 0;
    var map = image.map[0] === "neither" ? plural(image.map[1], "code") + " wrong" : image.map[0] === "new" ? "new map" : "old map";
    var sound = image.sound.number !== 0 ? "not sound" : image.sound.letter ? "leftover (" + image.sound.letter + ")" : "settled";
    return '<span class="tag ' + (bad ? "bad" : "good") + '">' + (bad ? "&#10007; " : "&#10003; ") + map + ", " + sound + "</span>";
  }

  /* ---- the controls */

  /* There was no room for more than one image of some orders. */
  function alone(s) {
    return s.some.some(function (c) { return s.images[c].length === 4; });
  }

  function cutText(s, moment, kept) {
    var out = [];
    s.lines.forEach(function (line, l) {
      var open = moment.stored[l] - moment.flushed[l], buttons = "";
      if (open === 0) return;
      for (var k = 0; k <= open; k++)
        buttons += '<button type="button" data-line="' + l + '" data-kept="' + (moment.flushed[l] + k) + '" aria-pressed="'
          + (kept[l] === moment.flushed[l] + k) + '">'
          + (k === 0 ? "none" : k === open ? "all " + open : k) + "</button>";
      out.push("<p><b>Line " + line + "</b> (" + lineText(line) + ") is dirty. Of its " + plural(open, "unflushed store") + ", written: " + buttons
        + "</p>");
    });
    if (s.some.length && state.order >= s.some[0] && out.length > 1)
      out.push("<p>These are more choices than this page holds. It has: all; " + (alone(s) ? "and for some orders " : "") + "none of any line; and any number of one line with the others written whole.</p>");
    return out.join("") || '<p class="clean">No line is dirty: memory holds just this, whatever happens.</p>';
  }

  /* An order of a board's list in words, beside another list without what all codes begin with. */
  function listText(s, o, i) {
    if (!s.words || (state.pair && window.innerWidth < 1100)) return orderShort(s, o);
    return state.pair && s.prefix ? s.words[i].replace(s.prefix, "…") : s.words[i];
  }

  function listOf(s, c, shown, odd) {
    return s.orders.map(function (o, i) {
      if (hides(s) && !s.board && i + 1 > c) return "";
      var classes = [o[0] === "flush" ? "flush" : "", i + 1 === c ? "now" : i + 1 > c ? "later" : "", odd && odd[i] ? "odd" : ""].join(" ").trim();
      var why = odd && typeof odd[i] === "string" ? " — " + odd[i] : "";
      return '<li><button type="button" tabindex="' + (i + 1 === c ? 0 : -1) + '" class="' + classes + '" data-scene="' + shown + '" data-order="' + (i + 1) + '" title="'
        + esc(orderText(s, o) + why) + '"' + (i + 1 === c ? ' aria-current="step"' : "") + ">" + (i + 1) + " " + esc(listText(s, o, i)) + "</button></li>";
    }).join("");
  }

  /* Which orders of a drawing and of the list beside it differ in a way that breaks something, and what. Nothing of a list that the judge accepts. */
  function oddByHunks(s, right) {
    var odd = [s.orders.map(function () { return false; }), right.orders.map(function () { return false; })];
    s.hunks.forEach(function (h) {
      if (h[4] === null) return;
      var why = h[4].trim().replace(/^no: after \d+ of \d+ orders[^\n]*\n/, "").replace(/\n/g, "; ") || "the change is not completed";
      for (var i = 0; i < h[1]; i++) odd[0][h[0] + i] = why;
      for (i = 0; i < h[3]; i++) odd[1][h[2] + i] = why;
    });
    return odd;
  }

  /* Which orders of one list are not in the longest part that it shares with the other. */
  function oddOrders(a, b) {
    var x = a.orders.map(String), y = b.orders.map(String), best = [];
    for (var i = x.length; i >= 0; i--) {
      best[i] = [];
      for (var k = y.length; k >= 0; k--)
        best[i][k] = i === x.length || k === y.length ? 0 : x[i] === y[k] ? best[i + 1][k + 1] + 1 : Math.max(best[i + 1][k], best[i][k + 1]);
    }
    var odd = x.map(function () { return true; });
    for (i = 0, k = 0; i < x.length && k < y.length;)
      if (x[i] === y[k]) { odd[i] = false; i++; k++; } else if (best[i + 1][k] >= best[i][k + 1]) i++; else k++;
    return odd;
  }

  function drawLists(s) {
    function one(index, title, odd) {
      var scene = data.scenes[index], c = index === state.scene ? state.order : -1;
      return '<div class="list' + (state.pair ? " two" : "") + (scene.words ? " words" : "") + '"><h2>' + title + "</h2><ol>" + listOf(scene, c, index, odd) + "</ol></div>";
    }
    if (!state.pair) return one(state.scene, s.board ? "Your orders" : "The orders");
    var wrong = data.scenes[state.pair.wrong], right = data.scenes[state.pair.right], drawn = wrong.board ? "Your orders" : "As drawn";
    if (hides(s)) return one(state.pair.wrong, drawn);
    state.pair.odd = state.pair.odd || (wrong.hunks ? oddByHunks(wrong, right) : [oddOrders(wrong, right), oddOrders(right, wrong)]);
    return one(state.pair.wrong, drawn, state.pair.odd[0]) + one(state.pair.right, wrong.judge === -1 ? "Right as well" : "The nearest right list", state.pair.odd[1]);
  }

  function toldText(s) {
    var images = s.images.reduce(function (sum, x) { return sum + x.length / 4; }, 0), out = esc(s.told);
    if (s.board) return "";
    if (hides(s)) return esc(s.ask || "Guess first: where may a cut lose a code?") + ' <button type="button" data-go="ask">show the answer</button>';
    if (s.lost) out += " <b>The first cut that loses a code comes after order " + s.lost.order + ".</b> ";
    else if (s.unsound) out += " <b>The first cut that leaves a table that is not sound comes after order " + s.unsound.order + ".</b> ";
    else if (s.some.length) out += " A cut may leave more images than this page holds; the " + images + " that it holds keep the old map or the new one. ";
    else out += " <b>No cut loses a code:</b> all " + images + " images that one may leave keep the old map or the new one. ";
    if (s.judge !== null) out += s.judge < 0 ? "The judge says yes. " : "The judge says no, after order " + s.judge + ". ";
    if (s.lost || s.unsound) out += '<button type="button" data-go="bad">go to that cut</button> ';
    if (s.others > 0) out += plural(s.others, "more node is", "more nodes are") + " in use and not drawn: no order stores there. ";
    if (s.prefix) out += "Codes here begin with <b>" + s.prefix + "</b>; nodes show the rest. ";
    return out;
  }

  function drawTicks(s) {
    var n = Math.max(1, s.orders.length);
    var marks = s.orders.map(function (o, i) { return o[0] === "flush" ? '<i style="left:' + 100 * (i + 1) / n + '%"></i>' : ""; }).join("");
    var bad = !hides(s) && (s.lost || s.unsound);
    if (hides(s)) marks = "";
    return marks + (bad ? '<b style="left:' + 100 * bad.order / n + '%">&#9650;</b>' : "");
  }

  function cellSign(kind, letter, text) {
    return '<span><span class="cell ' + kind + '"><b class="key">060</b><b>106</b><em>' + letter + "</em></span>" + text + "</span>";
  }

  function drawLegend() {
    return ["<b>Signs</b>", '<span><span class="line dirty"></span><b>dirty</b>: stored to, not flushed; a cut may lose it</span>',
      '<span><span class="line flushed"></span><b>flushed</b>: memory has it</span>',
      '<span><b class="stored">&nbsp;060&nbsp;</b> the word just stored</span>',
      '<span><b class="unsure">060</b> memory: this word may or may not be written</span>',
      cellSign("h", "H", "<b>hidden</b>: its pointer equals the one before it"),
      cellSign("t", "T", "<b>trailing</b>: ignored, for its key is the sibling’s"),
      cellSign("o", "S", "<b>stale</b>: behind the first pointer 0, not in use"),
      '<span><b class="badge" style="position:static;display:inline-block">1</b> steps of the search</span>',
      "<span>solid arrow: child; dashed arrow: sibling; dashed box: a node that nothing links</span>",
      "<span>below the slider: blue ticks, the flushes; &#9650; the first bad cut</span>"].join("");
  }

  /* As large as its side allows; without a window, as in a test, as it is. */
  function fit(id, s) {
    var stage = by(id), inner = stage.firstElementChild, wide = stage.clientWidth;
    if (!inner || !wide) return;
    var scale = Math.min(1.5, wide / s.width, Math.max(0.82, (window.innerHeight - 400) / s.height));
    /* What is to be tapped stays as large as it is; the side scrolls. */
    if (s.board && id === "working-stage") scale = Math.max(1, Math.min(1.25, wide / s.width));
    inner.style.transform = "translateX(" + Math.max(0, (wide - scale * s.width) / 2) + "px) scale(" + scale + ")";
    stage.style.height = Math.ceil(scale * s.height) + "px";
    if (stage.style.setProperty) { stage.style.setProperty("--w", s.width); stage.style.setProperty("--h", s.height); }
  }

  /* What had the focus is drawn anew: its like gets it back. */
  function focusName() {
    var on = document.activeElement, d = on && on.dataset;
    if (!on || !d || on.id) return null;
    var names = ["line", "kept", "scene", "order", "word", "flush", "use", "go"].filter(function (n) { return d[n] !== undefined; });
    return names.length ? names.map(function (n) { return "[data-" + n + '="' + d[n] + '"]'; }).join("") : null;
  }

  function show() {
    var focused = focusName();
    draw();
    var again = focused && document.querySelector(focused);
    if (again) again.focus({ preventScroll: true });
    if (window.film && window.film.after) window.film.after();
  }

  function draw() {
    var s = data.scenes[state.scene], moment = at(s, state.order), kept = keptNow(s, moment);
    by("title").textContent = titleOf(s);
    document.title = "Film: " + s.title;
    by("told").innerHTML = toldText(s);
    by("now").textContent = momentText(s, state.order);
    by("order").max = s.orders.length;
    by("order").value = state.order;
    by("order").setAttribute("aria-valuetext", momentText(s, state.order));
    by("ticks").innerHTML = drawTicks(s);
    if (!s.board) by("scene").value = String(state.scene);
    by("guess").checked = state.guess;
    by("to-first").disabled = by("to-previous").disabled = state.order === 0;
    by("to-last").disabled = by("to-next").disabled = state.order === s.orders.length;
    var working = viewOf(s, moment, moment.stored, false), memory = viewOf(s, moment, kept, true);
    by("working-stage").innerHTML = table(s, working);
    by("working-said").innerHTML = said(s, working, false);
    by("working-tag").innerHTML = tagText(s, working.image);
    by("memory-tag").innerHTML = tagText(s, memory.image);
    by("memory-kind").textContent = kept.some(function (k, l) { return moment.stored[l] > moment.flushed[l]; })
      ? "as you choose below" : "all is flushed";
    by("memory-stage").innerHTML = memory.image ? table(s, memory) : "";
    by("cut").innerHTML = cutText(s, moment, kept);
    by("memory-said").innerHTML = said(s, memory, true);
    by("lists").innerHTML = drawLists(s);
    fit("working-stage", s);
    if (memory.image) fit("memory-stage", s);
    scrollLists();
    remember(s, moment, kept);
  }

  function scrollLists() {
    document.querySelectorAll("#lists .now").forEach(function (button) {
      var list = button.closest("ol");
      list.scrollTop = button.offsetTop - list.offsetTop - list.clientHeight / 2;
    });
    /* The list beside it is shown from where it differs. */
    document.querySelectorAll("#lists ol").forEach(function (list) {
      var odd = list.querySelector(".odd");
      if (odd && !list.querySelector(".now")) list.scrollTop = odd.offsetTop - list.offsetTop - list.clientHeight / 3;
    });
  }

  /* The choice of a cut, kept inside what this moment allows; without one, nothing that is not flushed is written. */
  function keptNow(s, moment) {
    return s.lines.map(function (_, l) {
      var k = state.kept ? state.kept[l] : moment.flushed[l];
      return Math.min(moment.stored[l], Math.max(moment.flushed[l], k));
    });
  }

  function remember(s, moment, kept) {
    var cut = [];
    s.lines.forEach(function (line, l) { if (kept[l] > moment.flushed[l]) cut.push(line + ":" + (kept[l] - moment.flushed[l])); });
    var hash = "#scene=" + (state.scene + 1) + "&order=" + state.order + (cut.length ? "&cut=" + cut.join(",") : "");
    if (state.code) hash += "&code=" + encodeURIComponent(state.code);
    if (s.board) hash = "#board";
    else if (s.ask && !hides(s) && state.order === 0) hash += "&shown=1";
    try { window.history.replaceState(null, "", hash); } catch (e) { /* a page from a file may not */ }
  }

  function go(order) {
    state.order = Math.max(0, Math.min(data.scenes[state.scene].orders.length, order));
    state.kept = null;
    show();
  }

  function openScene(index, keepPair) {
    var s = data.scenes[index];
    if (!s.ready) prepare(s);
    state.scene = index;
    state.order = 0;
    state.kept = null;
    state.code = "";
    if (!keepPair) state.asked = false;
    if (!keepPair) state.pair = s.beside >= 0 ? { wrong: index, right: s.beside } : null;
    if (state.pair && !data.scenes[state.pair.right].ready) prepare(data.scenes[state.pair.right]);
    by("codes").innerHTML = codesOf(s).map(function (c) { return '<option value="' + esc(c) + '">'; }).join("");
  }

  /* Codes that are found before the list or after it. */
  function codesOf(s) {
    var last = at(s, s.orders.length), images = [imageOf(s, last.stored.map(function () { return 0; })), imageOf(s, last.stored)];
    return s.marks.filter(function (m) {
      return images.some(function (image) { return image && wayOf(s, image, m).number === 0; });
    }).map(keyText);
  }

  function goToBad() {
    var s = data.scenes[state.scene], bad = s.lost || s.unsound;
    if (s.board && s.lost && s.unsound && s.unsound.order < s.lost.order) bad = s.unsound;
    if (!bad) return;
    state.order = bad.order;
    state.kept = bad.kept.slice();
    state.code = bad === s.lost ? keyText(bad.key) : "";
    by("code").value = state.code;
  }

  /* A wrong drawing opens at its first bad cut. */
  function enter(index) {
    stop();
    openScene(index, false);
    by("code").value = "";
    if (!hides(data.scenes[index])) goToBad();
    show();
  }

  function stop() {
    if (playing) window.clearInterval(playing);
    playing = null;
    by("play").textContent = "play";
    by("play").setAttribute("aria-pressed", "false");
  }

  function play() {
    if (playing) return stop();
    if (state.order === data.scenes[state.scene].orders.length) go(0);
    by("play").textContent = "stop";
    by("play").setAttribute("aria-pressed", "true");
    playing = window.setInterval(function () {
      if (state.order >= data.scenes[state.scene].orders.length) stop(); else go(state.order + 1);
    }, 700);
  }

  function press(event) {
    var from = event.target || {}, typing = from.id === "code" || from.id === "scene" || /^(TEXTAREA|SELECT)$/.test(from.tagName) || from.type === "text";
    var steps = { ArrowLeft: -1, ArrowRight: 1, ArrowUp: 1, ArrowDown: -1, PageUp: 10, PageDown: -10 }, n = data.scenes[state.scene].orders.length;
    if (typing || event.altKey || event.ctrlKey || event.metaKey) return;
    if (steps[event.key] !== undefined && (from.id === "order" || /^Arrow(Left|Right)$/.test(event.key))) go(state.order + steps[event.key]);
    else if (event.key === "Home") go(0);
    else if (event.key === "End") go(n);
    else return;
    event.preventDefault();
  }

  /* If the page does not hold every choice it holds this one with the other lines written whole. */
  function choose(s, moment, line, kept) {
    state.kept = keptNow(s, moment);
    state.kept[line] = kept;
    if (!imageOf(s, state.kept)) state.kept = moment.stored.map(function (all, l) { return l === line ? kept : all; });
  }

  function click(event) {
    var from = event.target.closest ? event.target.closest("[data-order], [data-kept], [data-go], [data-row]") : null;
    if (!from) return;
    var d = from.dataset;
    if (d.row !== undefined) {
      enter(Number(d.row));
      if (by("controls").scrollIntoView) by("controls").scrollIntoView();
    } else if (d.go === "ask") { state.asked = data.scenes[state.scene].answered = true; show(); }
    else if (d.go) { goToBad(); show(); }
    else if (d.kept) {
      var s = data.scenes[state.scene];
      choose(s, at(s, state.order), Number(d.line), Number(d.kept));
      show();
    } else {
      var code = state.code;
      if (Number(d.scene) !== state.scene) openScene(Number(d.scene), true);
      state.code = code;
      go(Number(d.order));
    }
  }

  /* #scene=2&order=5&cut=2:1&code=AA0002600040; false if it names no moment. */
  function readHash() {
    var named = {};
    String(window.location.hash).replace(/^#/, "").split("&").forEach(function (part) {
      var two = part.split("=");
      try { named[two[0]] = decodeURIComponent(two[1] || ""); } catch (e) { /* no address of ours */ }
    });
    if (named.scene === undefined && named.order === undefined) return false;
    var index = Number(named.scene || 1) - 1;
    if (!data.scenes[index] || data.scenes[index].board) return false;
    openScene(index, false);
    var s = data.scenes[index], order = Number(named.order || 0);
    state.order = Math.max(0, Math.min(s.orders.length, Math.floor(order) || 0));
    state.asked = state.order > 0 || named.shown === "1";
    state.code = named.code || "";
    by("code").value = state.code;
    if (named.cut) {
      var moment = at(s, state.order);
      state.kept = moment.flushed.slice();
      named.cut.split(",").forEach(function (one) {
        var two = one.split(":"), l = s.lines.indexOf(Number(two[0]));
        if (l >= 0) state.kept[l] += Math.floor(Number(two[1])) || 0;
      });
    }
    show();
    return true;
  }

  /* The teacher's table: a row a list, which opens it. */
  function drawClass() {
    var known = {};
    data.class.forEach(function (r) { if (r.mistake) known[r.mistake] = (known[r.mistake] || 0) + 1; });
    var right = data.class.filter(function (r) { return r.judge === -1; }).length, sums = Object.keys(known).sort(function (a, b) { return known[b] - known[a]; });
    by("class").hidden = false;
    by("class").innerHTML = "<h2>" + plural(data.class.length, "list") + ": " + right + " right" + sums.map(function (m) { return ", " + known[m] + " " + esc(m); }).join("") + "</h2>"
      + "<table><thead><tr><th>who</th><th>verdict</th><th>first count that fails</th><th>mistake</th></tr></thead><tbody>" + data.class.map(function (r) {
      if (r.wrong) return "<tr><th scope=\"row\">" + esc(r.who) + '</th><td colspan="3">not judged: ' + esc(r.wrong) + "</td></tr>";
      return '<tr class="' + (r.judge < 0 ? "good" : "bad") + '"><th scope="row"><button type="button" data-row="' + r.scene + '">' + esc(r.who) + "</button></th><td>" + (r.judge < 0 ? "yes" : "no") + "</td><td>"
        + (r.judge < 0 ? "" : r.judge + " of " + r.orders) + "</td><td>" + esc(r.mistake) + "</td></tr>";
    }).join("") + "</tbody></table>";
  }

  /* A finger that moves sideways over a drawing goes one order on, or back. */
  function swipes() {
    ["working-stage", "memory-stage"].forEach(function (id) {
      var from = null;
      by(id).addEventListener("touchstart", function (e) { from = e.touches.length === 1 ? [e.touches[0].clientX, e.touches[0].clientY] : null; }, { passive: true });
      by(id).addEventListener("touchend", function (e) {
        if (!from || data.scenes[state.scene].board) return;
        var x = e.changedTouches[0].clientX - from[0], y = e.changedTouches[0].clientY - from[1];
        if (Math.abs(x) > 60 && Math.abs(x) > 2 * Math.abs(y)) go(state.order + (x < 0 ? 1 : -1));
        from = null;
      });
    });
  }

  function begin() {
    by("scene").innerHTML = data.scenes.map(function (s, i) {
      return '<option value="' + i + '">' + (i + 1) + ". " + esc(titleOf(s)) + "</option>";
    }).join("");
    by("choose").hidden = data.scenes.length === 1;
    by("title").className = data.scenes.length === 1 ? "" : "in-print";
    by("legend").innerHTML = drawLegend();
    if (data.class) drawClass();
    by("scene").addEventListener("change", function () {
      enter(Number(by("scene").value));
      /* So that the arrow keys step on. */
      if (by("order").focus) by("order").focus();
    });
    by("order").addEventListener("input", function () { go(Number(by("order").value)); });
    by("code").addEventListener("input", function () { state.code = by("code").value.trim(); show(); });
    by("to-first").addEventListener("click", function () { go(0); });
    by("to-previous").addEventListener("click", function () { go(state.order - 1); });
    by("to-next").addEventListener("click", function () { go(state.order + 1); });
    by("to-last").addEventListener("click", function () { go(data.scenes[state.scene].orders.length); });
    by("play").addEventListener("click", play);
    by("guess").addEventListener("change", function () { state.guess = Boolean(by("guess").checked); state.asked = false; show(); });
    swipes();
    document.addEventListener("keydown", press);
    document.addEventListener("click", click);
    window.addEventListener("resize", show);
    window.addEventListener("beforeprint", show);
    window.addEventListener("hashchange", function () { if (!data.scenes[state.scene].board) readHash(); });
    /* With a list of one's own the page opens there. */
    if (!readHash()) enter(!data.class && data.scenes.length > 1 && data.scenes.length < 4 && data.scenes[1].beside >= 0 ? 1 : 0);
  }

  window.film = { data: data, state: state, at: at, imageOf: imageOf, wordsOf: wordsOf, wayOf: wayOf, keyText: keyText, readCode: readCode,
    prepare: prepare, go: go, enter: enter, openScene: openScene, show: show, goToBad: goToBad, place: place, lineText: lineText, orderText: orderText, pointerText: pointerText,
    short: short, esc: esc, by: by, stop: stop };
  begin();
})();
