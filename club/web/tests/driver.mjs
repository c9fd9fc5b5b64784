#!/usr/bin/env -S node --experimental-websocket --no-warnings
// Drives the page in headless Chromium over its debugging port.
//
// By itself: driver.mjs ADDRESS [FOLDER] [PORT] < steps
// opens ADDRESS (with #game) and reads one step a line, each a JSON object; it answers each with
// one
// line, a JSON object too, which has `fault` where the step failed:
//   {"open": "g1"}                                   opens a game          {"state": ".."}
//   {"paper": 3}  or {"paper": "now"}                shows a paper         {"which": ".."}
//   {"power": "france", "secret": "..", "what": "ORDERS", "text": "A par - bur\n"}
//   {.., "what": "PRESS WHITE", "text": "..", "to": ["italy"]}             or "PRESS GREY"
//   {.., "what": "VOTE", "vote": "FOR", "to": ["france", "italy"]}         or "YES", "NO"
//   {.., "what": "SHOW"}, {.., "what": "WITHDRAW"}, {.., "what": "INBOX", "first": 1}
//        fills the form and sends it                 {"said": "..", "lines": [".."], "raw": "REPLY
// .."}
//   {"shot": "name", "width": 1280, "height": 900, "dark": false, "zoom": 1}
//        a picture FOLDER/name.png                   {"shot": "FOLDER/name.png"}
//   {"eval": "document.title"}                       {"value": ..}
// PORT is the debugging port, 8490 if none is given.
import { spawn } from "node:child_process";
import fs from "node:fs";
import os from "node:os";
import path from "node:path";
import readline from "node:readline";
import { pathToFileURL } from "node:url";

export const sleep = (ms) => new Promise((done) => setTimeout(done, ms));

const find = (selector) => `document.querySelector(${JSON.stringify(selector)})`;
const ALL_READ = `!${find("#which")}.textContent.includes(" read)")`;
const wordsOf = (details) => details.exception?.description || details.text;

export async function browser(port = 8490) {
  const home = fs.mkdtempSync(path.join(os.tmpdir(), "page-"));
  const child = spawn("chromium", ["--headless=new", "--no-sandbox", "--disable-gpu",
    "--hide-scrollbars",
    "--no-first-run", "--disable-background-networking", "--disable-component-update",
      "--disable-sync",
    `--remote-debugging-port=${port}`, `--user-data-dir=${home}`, "--window-size=1280,900",
      "about:blank"],
  { stdio: "ignore" });
  let target;
  for (let i = 0; i < 300 && !target; i++) {
    try {
      target = (await (await fetch(`http://127.0.0.1:${port}/json`)).json()).find((t) =>
        t.type === "page");
    } catch { /* It isn't up yet. */ }
    if (!target) await sleep(100);
  }
  if (!target) throw new Error("Chromium doesn't start");
  const socket = new WebSocket(target.webSocketDebuggerUrl);
  await new Promise((done) => { socket.onopen = done; });
  const waiting = {};
  const seen = { errors: [], security: [], requests: [] };
  let id = 0;
  socket.onmessage = ({ data }) => {
    const m = JSON.parse(data);
    if (m.id) { waiting[m.id]?.(m); delete waiting[m.id]; return; }
    const p = m.params;
    if (m.method === "Network.requestWillBeSent") seen.requests.push(p.request.url);
    if (m.method === "Runtime.exceptionThrown") seen.errors.push(wordsOf(p.exceptionDetails));
    if (m.method === "Runtime.consoleAPICalled"
      && p.type !== "debug") seen.errors.push(p.args.map((a) => a.value
      ?? a.description).join(" "));
    if (m.method === "Log.entryAdded") {
      if (p.entry.source === "security") seen.security.push(p.entry.text);
      else if (p.entry.source !== "network"
        && p.entry.level !== "verbose") seen.errors.push(p.entry.text);
    }
  };
  const call = (method, params = {}) => new Promise((done, failed) => {
    const n = ++id;
    waiting[n] = (m) => (m.error ? failed(new Error(m.error.message)) : done(m.result));
    socket.send(JSON.stringify({ id: n, method, params }));
  });
  for (const domain of ["Page", "Runtime", "Log", "Network"]) await call(domain + ".enable");

  // The page forbids eval to itself; the debugger isn't bound by that.
  async function evaluate(expression) {
    const r = await call("Runtime.evaluate",
      { expression, awaitPromise: true, returnByValue: true });
    if (r.exceptionDetails) throw new Error(r.exceptionDetails.exception?.description
      || r.exceptionDetails.text);
    return r.result.value;
  }
  async function until(expression, ms = 20000) {
    for (const end = Date.now() + ms; Date.now() < end; await sleep(50)) {
      try { if (await evaluate(expression)) return true; } catch { /* The page is on its way. */ }
    }
    throw new Error("waited in vain for " + expression);
  }
  async function size({ width = 1280, height = 900, dark = false, zoom = 1, sight = "none" } = {}) {
    await call("Emulation.setDeviceMetricsOverride",
      { width: Math.round(width / zoom), height: Math.round(height / zoom),
      deviceScaleFactor: zoom * (width < 600 ? 1.5 : 1), mobile: width < 600 });
    await call("Emulation.setEmulatedMedia",
      { features: [{ name: "prefers-color-scheme", value: dark ? "dark" : "light" }] });
    await call("Emulation.setEmulatedVisionDeficiency", { type: sight });
    await sleep(250);
  }
  async function shot(file, how = {}) {
    await size(how);
    await call("Input.dispatchMouseEvent", { type: "mouseMoved", x: 0, y: 0 });     // nothing lit
    const clip = how.clip && { clip: { ...(await box(how.clip)), scale: 1 } };
    const { data } = await call("Page.captureScreenshot",
      { format: "png", ...clip, captureBeyondViewport: !!clip });
    fs.writeFileSync(file, Buffer.from(data, "base64"));
    return file;
  }
  const box = (selector) =>
    evaluate(`(() => { const b = ${find(selector)}.getBoundingClientRect();
    return { x: b.x + scrollX, y: b.y + scrollY, width: b.width, height: b.height }; })()`);
  async function click(x, y) {
    for (const type of ["mousePressed", "mouseReleased"]) {
      await call("Input.dispatchMouseEvent", { type, x, y, button: "left", clickCount: 1 });
    }
    await sleep(60);
  }
  // Clicks an element in its middle, or the map where a province's unit stands.
  async function clickOn(selector) {
    const at = await evaluate(`(() => { const e = ${find(selector)};
      e.scrollIntoView({ block: "center" }); const b = e.getBoundingClientRect();
        return [b.x + b.width / 2, b.y + b.height / 2]; })()`);
    await click(...at);
  }
  async function clickMap(place) {
    const at = await evaluate(`import("/map.js").then(({ MAP }) => {
      const [n, c] = ${JSON.stringify(place)}.split("/");
      const p = MAP.provinces[n]; const s = document.getElementById("map");
        s.scrollIntoView({ block: "center" });
      const q = new DOMPoint(...(c ? p.coasts[c].at : p.at)).matrixTransform(s.getScreenCTM());
        return [q.x, q.y]; })`);
    await click(...at);
  }
  async function key(name, modifiers = 0) {
    const text = name.length === 1 ? name : name === "Enter" ? "\r" : undefined;
    const code = { Tab: 9, Enter: 13, ArrowLeft: 37, ArrowUp: 38, ArrowRight: 39, ArrowDown: 40,
      " ": 32 }[name] || name.toUpperCase().charCodeAt(0);
    await call("Input.dispatchKeyEvent",
      { type: "keyDown", key: name, text, windowsVirtualKeyCode: code, modifiers });
    await call("Input.dispatchKeyEvent", { type: "keyUp", key: name, windowsVirtualKeyCode: code,
      modifiers });
    await sleep(30);
  }
  async function navigate(url) {
    await call("Page.navigate", { url });
    await sleep(200);
  }
  async function open(game) {
    await evaluate(`location.hash = ${JSON.stringify(game)}`);
    await until(`${find("#title")}.textContent === "Game ${game}" || !${find("#trouble")}.hidden`);
    await until(`!${find("#trouble")}.hidden || ${ALL_READ}`);
    return evaluate(`document.querySelector("#state").textContent`);
  }
  async function paper(n) {
    if (n === "now") await evaluate(`document.querySelector("#now").click()`);
    else {
      await until(ALL_READ);
      await evaluate(`(() => { ${find("#now")}.click(); ${find("#first")}.click();
        for (let i = 1; i < ${+n}; i++) document.querySelector("#next").click(); })()`);
    }
    await sleep(150);
    return evaluate(`document.querySelector("#which").textContent`);
  }
  // Fills the form as a player would, and sends it.
  async function post(s) {
    await evaluate(`(() => { const $ = (i) => document.getElementById(i);
      const s = ${JSON.stringify(s)};
      const set = (e, v, type) => { e.value = v;
        e.dispatchEvent(new Event(type, { bubbles: true })); };
      set($("power"), s.power, "change"); $("secret").value = s.secret;
        set($("what"), s.what || "ORDERS", "change");
      if (s.vote) { const r = document.querySelector("[name=vote][value=" + s.vote + "]");
        r.checked = true; r.onchange(); }
      if ((s.what || "ORDERS") === "ORDERS") { if (s.text !== undefined) set($("orders"), s.text,
        "input"); }
      else if (s.text !== undefined) $("press").value = s.text;
      for (const b of document.querySelectorAll("#boxes input")) b.checked = (s.to
        || []).includes(b.value);
      if (s.first) $("from-item").value = s.first; $("said").textContent = "Sending ...";
        $("send").click(); })()`);
    await until(`!${find("#send")}.disabled
      && !/^Sending|^No answer/.test(${find("#said")}.textContent)`, 120000);
    return evaluate(`({ said: document.querySelector("#said").textContent,
      lines: [...document.querySelectorAll("#reply li")].map((l) => l.textContent),
        raw: document.querySelector("#raw").textContent })`);
  }
  async function close() {
    try { await Promise.race([call("Browser.close"), sleep(2000)]); } catch { /* It is gone. */ }
    socket.close();
    child.kill();
    await sleep(300);
    fs.rmSync(home, { recursive: true, force: true, maxRetries: 5 });
  }
  return { call, evaluate, until, size, shot, box, click, clickOn, clickMap, key, navigate, open,
    paper, post, close, seen };
}

async function steps(address, folder = ".", port = "8490") {
  const b = await browser(+port);
  try {
    await b.navigate(address);
    await b.until(`!document.querySelector("#app").hidden`);
    for await (const line of readline.createInterface({ input: process.stdin })) {
      if (!line.trim()) continue;
      let out;
      try {
        const s = JSON.parse(line);
        if (s.open) out = { state: await b.open(s.open) };
        else if (s.paper) out = { which: await b.paper(s.paper) };
        else if (s.shot) out = { shot: await b.shot(path.join(folder, s.shot + ".png"), s) };
        else if (s.eval) out = { value: await b.evaluate(s.eval) };
        else out = await b.post(s);
      } catch (e) { out = { fault: e.message }; }
      console.log(JSON.stringify(out));
    }
  } finally { await b.close(); }
}

if (import.meta.url === pathToFileURL(process.argv[1]).href) {
  if (!process.argv[2]) { console.error("driver.mjs ADDRESS [FOLDER] [PORT] < steps");
    process.exit(2); }
  await steps(...process.argv.slice(2));
}
