/* A browser, spoken to by its debugging pipe, so that keys, clicks and taps are real ones. */
"use strict";
const assert = require("assert");
const { spawn } = require("child_process");
const fs = require("fs");
const path = require("path");
const smaller = require("./smaller.js");

const WIDTH = 1280, HEIGHT = 800;

class Browser {
  constructor(browser, folder, pictures) {
    this.pictures = pictures;
    const words = ["--headless", "--no-sandbox", "--disable-gpu", "--hide-scrollbars", "--disable-lcd-text", "--force-color-profile=srgb", "--remote-debugging-pipe",
      "--user-data-dir=" + path.join(folder, "profile"), "--window-size=" + WIDTH + "," + HEIGHT, "about:blank"];
    this.process = spawn(browser, words, { stdio: ["ignore", "ignore", "ignore", "pipe", "pipe"] });
    this.waiting = new Map();
    this.heard = [];
    this.number = 0;
    let rest = "";
    this.process.stdio[4].setEncoding("utf8");
    this.process.stdio[4].on("data", (text) => {
      const parts = (rest + text).split("\0");
      rest = parts.pop();
      parts.forEach((part) => this.hear(JSON.parse(part)));
    });
  }

  hear(message) {
    const waiting = this.waiting.get(message.id);
    if (!waiting) { this.heard.push(message); return; }
    this.waiting.delete(message.id);
    if (message.error) waiting.reject(new Error(JSON.stringify(message.error))); else waiting.resolve(message.result);
  }

  send(method, params) {
    const id = ++this.number;
    this.process.stdio[3].write(JSON.stringify({ id, method, params: params || {}, sessionId: this.session }) + "\0");
    return new Promise((resolve, reject) => this.waiting.set(id, { resolve, reject }));
  }

  async open(url) {
    const { targetId } = await this.send("Target.createTarget", { url: "about:blank" });
    this.session = (await this.send("Target.attachToTarget", { targetId, flatten: true })).sessionId;
    for (const domain of ["Page", "Runtime", "Network", "Log"]) await this.send(domain + ".enable");
    await this.send("Emulation.setDeviceMetricsOverride", { width: WIDTH, height: HEIGHT, deviceScaleFactor: 1, mobile: false });
    await this.send("Page.navigate", { url });
    await this.until('document.readyState === "complete" && Boolean(window.film)');
  }

  /* A screen of that size, with fingers or with a mouse. */
  async screen(width, height, touch) {
    await this.send("Emulation.setDeviceMetricsOverride", { width, height, deviceScaleFactor: 1, mobile: Boolean(touch) });
    await this.send("Emulation.setTouchEmulationEnabled", { enabled: Boolean(touch) });
    await this.until("window.innerWidth === " + width);
  }

  async run(code) {
    const { result, exceptionDetails } = await this.send("Runtime.evaluate", { expression: code, returnByValue: true, awaitPromise: true });
    assert(!exceptionDetails, code + ": " + JSON.stringify(exceptionDetails));
    return result.value;
  }

  async until(code) {
    for (let i = 0; i < 200; i++) {
      if (await this.run(code)) return;
      await new Promise((resolve) => setTimeout(resolve, 50));
    }
    throw new Error("never: " + code);
  }

  async key(key) {
    const codes = { ArrowLeft: 37, ArrowRight: 39, Home: 36, End: 35, Enter: 13 };
    const params = { key, code: key, windowsVirtualKeyCode: codes[key] || 0 };
    await this.send("Input.dispatchKeyEvent", Object.assign(key === "Enter" ? { type: "keyDown", text: "\r" } : { type: "rawKeyDown" }, params));
    await this.send("Input.dispatchKeyEvent", Object.assign({ type: "keyUp" }, params));
  }

  async click(selector) {
    const at = await this.run(`(function () {
      var b = document.querySelector(${JSON.stringify(selector)});
      b.scrollIntoView({ block: "nearest" });
      var r = b.getBoundingClientRect();
      return [r.x + r.width / 2, r.y + r.height / 2];
    })()`);
    for (const type of ["mousePressed", "mouseReleased"]) await this.send("Input.dispatchMouseEvent", { type, x: at[0], y: at[1], button: "left", clickCount: 1 });
  }

  /* A finger's tap on the middle of what the selector names, which must be in sight and on top there. */
  async tap(selector) {
    const at = await this.run(`(function () {
      var b = document.querySelector(${JSON.stringify(selector)});
      if (!b) return null;
      b.scrollIntoView({ block: "center", inline: "nearest" });
      var r = b.getBoundingClientRect(), x = r.x + r.width / 2, y = r.y + r.height / 2, top = document.elementFromPoint(x, y);
      return [x, y, r.width, r.height, Boolean(top && (b === top || b.contains(top)))];
    })()`);
    assert(at, "nothing to tap: " + selector);
    assert(at[4], "something lies over " + selector);
    assert(at[2] >= 23.5 && at[3] >= 23.5, selector + " is " + at[2] + " x " + at[3] + " px");
    await this.send("Input.dispatchTouchEvent", { type: "touchStart", touchPoints: [{ x: at[0], y: at[1] }] });
    await this.send("Input.dispatchTouchEvent", { type: "touchEnd", touchPoints: [] });
  }

  async type(selector, text) {
    await this.run(`document.querySelector(${JSON.stringify(selector)}).focus(), document.querySelector(${JSON.stringify(selector)}).select()`);
    await this.send("Input.insertText", { text });
  }

  async picture(name, stay) {
    if (!stay) await this.run("window.scrollTo(0, 0)");
    const { data } = await this.send("Page.captureScreenshot", { format: "png" });
    fs.writeFileSync(path.join(this.pictures, name), smaller(Buffer.from(data, "base64")));
  }

  text(id) { return this.run(`document.getElementById(${JSON.stringify(id)}).innerText`); }

  async close() {
    const ended = new Promise((resolve) => this.process.on("exit", resolve));
    this.session = undefined;
    this.send("Browser.close").catch(() => {});
    await ended;
  }
}

module.exports = { Browser, WIDTH, HEIGHT };
