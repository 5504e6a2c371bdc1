/* The proved library, the judge and the film inside the page, from a WebAssembly module; no network, no server. liveFrom(bytes) -> calls, each of
 * which answers { status, text, said }: what the program prints, and what it says of a failure. */
async function liveFrom(bytes) {
  var input = new Uint8Array(0), at = 0, wrote = [[], []], instance = null;
  function view() { return new DataView(instance.exports.memory.buffer); }
  function none() { return 8; }
  var wasi = {
    fd_close: none, fd_seek: function () { return 70; }, fd_prestat_get: none, fd_prestat_dir_name: none, path_open: none, fd_filestat_get: none, fd_pread: none,
    poll_oneoff: none, environ_get: function () { return 0; },
    fd_fdstat_get: function (fd, to) {
      if (fd > 2) return 8;
      new Uint8Array(instance.exports.memory.buffer, to, 24).fill(0);
      return 0;
    },
    fd_read: function (fd, parts, count, got) {
      var all = 0;
      for (var i = 0; i < count; i++) {
        var from = view().getUint32(parts + 8 * i, true), n = Math.min(view().getUint32(parts + 8 * i + 4, true), input.length - at);
        new Uint8Array(instance.exports.memory.buffer, from, n).set(input.subarray(at, at + n));
        at += n;
        all += n;
      }
      view().setUint32(got, all, true);
      return 0;
    },
    fd_write: function (fd, parts, count, got) {
      var all = 0;
      for (var i = 0; i < count; i++) {
        var from = view().getUint32(parts + 8 * i, true), n = view().getUint32(parts + 8 * i + 4, true);
        wrote[fd - 1].push(new Uint8Array(instance.exports.memory.buffer, from, n).slice());
        all += n;
      }
      view().setUint32(got, all, true);
      return 0;
    },
    proc_exit: function (status) { throw new Error("the module ended with status " + status); }
  };
  var module = await WebAssembly.compile(bytes), imports = { wasi_snapshot_preview1: {} };
  WebAssembly.Module.imports(module).forEach(function (i) { imports.wasi_snapshot_preview1[i.name] = wasi[i.name] || none; });

  function put(text) {
    var coded = new TextEncoder().encode(text + "\0"), place = instance.exports.live_room(coded.length);
    new Uint8Array(instance.exports.memory.buffer, place, coded.length).set(coded);
    return place;
  }
  function textOf(parts) {
    var decoder = new TextDecoder();
    return parts.map(function (p) { return decoder.decode(p, { stream: true }); }).join("") + decoder.decode();
  }
  var busy = Promise.resolve();
  /* One call after another, each in an instance of its own, so that nothing of an earlier one is left. table { nodes, csv }, change { sign, code, recording }. */
  function call(name, table, change, word, list) {
    var mine = busy.then(async function () {
      instance = await WebAssembly.instantiate(module, imports);
      input = new TextEncoder().encode(list || "");
      at = 0;
      wrote = [[], []];
      instance.exports._initialize();
      var status = instance.exports.live_set(table.nodes, put(table.csv), change.sign.charCodeAt(0), put(change.code), put(change.recording || ""));
      if (status === 0) status = instance.exports[name](typeof word === "string" ? put(word) : word);
      return { status: status, text: textOf(wrote[0]), said: textOf(wrote[1]) };
    });
    busy = mine.catch(function () {});
    return mine;
  }
  return {
    judge: function (t, c, list) { return call("live_judge", t, c, 0, list); },
    film: function (t, c, list) { return call("live_film", t, c, list === undefined ? 0 : 1, list); },
    ours: function (t, c, all) { return call("live_ours", t, c, all ? 1 : 0); },
    board: function (t, c, list) { return call("live_board", t, c, list); },
    compare: function (t, c, list) { return call("live_compare", t, c, list); }
  };
}
