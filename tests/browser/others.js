/* Other browsers than Chromium, by their own protocols: Firefox by Marionette, WebKit by WebDriver. Each has what drawing.js and others-run.js ask of a browser:
 * open, run, until, tap, click, close. Taps are a finger's in Firefox; WebKit's driver has a mouse alone. */
"use strict";
const assert = require("assert");
const { spawn } = require("child_process");
const fs = require("fs");
const http = require("http");
const net = require("net");
const path = require("path");

const pause = (ms) => new Promise((resolve) => setTimeout(resolve, ms));

/* A port that nothing listens on. */
function freePort() {
  return new Promise((resolve) => {
    const server = net.createServer().listen(0, "127.0.0.1", () => {
      const { port } = server.address();
      server.close(() => resolve(port));
    });
  });
}

async function again(what, times) {
  for (let i = 0; ; i++) {
    try { return await what(); } catch (error) { if (i >= times) throw error; }
    await pause(250);
  }
}

/* What both share: everything but how a command is sent. A command has its WebDriver name, and its parameters. */
class Other {
  async open(url) {
    await this.command("Navigate", { url });
    await this.until('document.readyState === "complete" && Boolean(window.film) && Boolean(window.board)');
    await this.run('window.wrong = []; window.addEventListener("error", function (e) { window.wrong.push(e.message); }), true');
  }

  async run(code) {
    const script = "var done = arguments[arguments.length - 1]; Promise.resolve().then(function () { return eval(arguments[0]); }.bind(null, arguments[0]))"
      + ".then(function (v) { done({ value: v === undefined ? null : v }); }, function (e) { done({ error: String(e) }); });";
    const answer = await this.command("ExecuteAsyncScript", { script, args: [code] });
    assert(!answer.error, code + ": " + answer.error);
    return answer.value;
  }

  async until(code) {
    for (let i = 0; i < 400; i++) {
      if (await this.run(code)) return;
      await pause(50);
    }
    throw new Error("never: " + code);
  }

  async press(selector, pointerType) {
    const at = await this.run(`(function () {
      var b = document.querySelector(${JSON.stringify(selector)});
      if (!b) return null;
      b.scrollIntoView({ block: "center", inline: "nearest" });
      var r = b.getBoundingClientRect(), x = r.x + r.width / 2, y = r.y + r.height / 2, top = document.elementFromPoint(x, y);
      return [Math.round(x), Math.round(y), Boolean(top && (b === top || b.contains(top)))];
    })()`);
    assert(at, "nothing to tap: " + selector);
    assert(at[2], "something lies over " + selector);
    const actions = [{ type: "pointerMove", duration: 0, x: at[0], y: at[1] }, { type: "pointerDown", button: 0 }, { type: "pointerUp", button: 0 }];
    await this.command("PerformActions", { actions: [{ type: "pointer", id: "hand", parameters: { pointerType }, actions }] });
  }

  tap(selector) { return this.press(selector, this.finger); }
  click(selector) { return this.press(selector, "mouse"); }
  text(id) { return this.run(`document.getElementById(${JSON.stringify(id)}).innerText`); }

  async picture(name) {
    const data = await this.command("TakeScreenshot", {});
    fs.writeFileSync(name, Buffer.from(data, "base64"));
  }
}

/* Firefox: over a socket, each message with its length before it. */
class Firefox extends Other {
  constructor() { super(); this.finger = "touch"; }

  async start(program, folder) {
    const profile = path.join(folder, "firefox"), port = await freePort();
    fs.mkdirSync(profile);
    fs.writeFileSync(path.join(profile, "user.js"), `user_pref("marionette.port", ${port});\nuser_pref("dom.w3c_touch_events.enabled", 1);\n`);
    const env = Object.assign({}, process.env, { HOME: folder, MOZ_HEADLESS_WIDTH: "1280", MOZ_HEADLESS_HEIGHT: "800" });
    this.process = spawn(program, ["--headless", "--marionette", "--no-remote", "--profile", profile], { stdio: "ignore", env });
    this.waiting = new Map();
    this.number = 0;
    this.socket = await again(() => this.connect(port), 240);
    this.version = (await this.command("NewSession", { capabilities: { alwaysMatch: { acceptInsecureCerts: false } } })).capabilities.browserVersion;
  }

  connect(port) {
    return new Promise((resolve, reject) => {
      const socket = net.connect(port, "127.0.0.1");
      let rest = Buffer.alloc(0), greeted = false;
      socket.on("error", reject);
      socket.on("data", (bytes) => {
        rest = Buffer.concat([rest, bytes]);
        for (;;) {
          const colon = rest.indexOf(":");
          if (colon < 0) return;
          const size = Number(rest.toString("latin1", 0, colon));
          if (rest.length < colon + 1 + size) return;
          const message = JSON.parse(rest.toString("utf8", colon + 1, colon + 1 + size));
          rest = rest.subarray(colon + 1 + size);
          if (!greeted) { greeted = true; resolve(socket); } else this.hear(message);
        }
      });
    });
  }

  hear([, id, error, result]) {
    const { resolve, reject } = this.waiting.get(id);
    this.waiting.delete(id);
    if (error) reject(new Error(JSON.stringify(error))); else resolve(result && Object.keys(result).length === 1 && "value" in result ? result.value : result);
  }

  send(name, params) {
    const id = ++this.number, text = JSON.stringify([0, id, name, params]);
    this.socket.write(Buffer.byteLength(text) + ":" + text);
    return new Promise((resolve, reject) => this.waiting.set(id, { resolve, reject }));
  }

  command(name, params) { return this.send("WebDriver:" + name, params); }

  async close() {
    const ended = new Promise((resolve) => this.process.on("exit", resolve));
    this.send("Marionette:Quit", { flags: ["eForceQuit"] }).catch(() => {});
    await ended;
  }
}

/* WebKit: over HTTP, in a screen of its own. */
const WAYS = { NewSession: ["POST", ""], Navigate: ["POST", "/url"], ExecuteAsyncScript: ["POST", "/execute/async"], PerformActions: ["POST", "/actions"],
  TakeScreenshot: ["GET", "/screenshot"], DeleteSession: ["DELETE", ""] };

class WebKit extends Other {
  constructor() { super(); this.finger = "mouse"; }

  async start(driver, folder, browser) {
    const port = await freePort(), display = ":" + (100 + (port % 800));
    this.screen = spawn("Xvfb", [display, "-screen", "0", "1400x1000x24"], { stdio: "ignore" });
    const env = Object.assign({}, process.env, { DISPLAY: display, HOME: folder, XDG_RUNTIME_DIR: folder, WEBKIT_DISABLE_SANDBOX_THIS_IS_DANGEROUS: "1", NO_AT_BRIDGE: "1" });
    this.process = spawn(driver, ["--port=" + port], { stdio: "ignore", env });
    this.base = { host: "127.0.0.1", port };
    this.at = "/session";
    const capabilities = { alwaysMatch: { "webkitgtk:browserOptions": { binary: browser, args: ["--automation"] } } };
    const session = await again(() => this.command("NewSession", { capabilities }), 40);
    this.at = "/session/" + session.sessionId;
    this.version = session.capabilities.browserVersion;
  }

  command(name, params) {
    const [method, way] = WAYS[name], body = method === "POST" ? JSON.stringify(params) : undefined;
    return new Promise((resolve, reject) => {
      const request = http.request(Object.assign({ method, path: this.at + way, headers: body ? { "Content-Type": "application/json", "Content-Length": Buffer.byteLength(body) } : {} }, this.base), (answer) => {
        let text = "";
        answer.setEncoding("utf8");
        answer.on("data", (part) => { text += part; });
        answer.on("end", () => {
          const { value } = JSON.parse(text);
          if (answer.statusCode === 200) resolve(value); else reject(new Error(JSON.stringify(value)));
        });
      });
      request.on("error", reject);
      request.end(body);
    });
  }

  async close() {
    await this.command("DeleteSession").catch(() => {});
    this.process.kill();
    this.screen.kill();
  }
}

module.exports = { Firefox, WebKit };
