// A headless Chromium, driven over the DevTools protocol with node's own WebSocket (node 20 has it by --experimental-websocket).
import { spawn } from "node:child_process";
import fs from "node:fs";
import os from "node:os";
import path from "node:path";

const pause = (time) => new Promise((done) => setTimeout(done, time));
const PATIENCE = Number(process.env.PATIENCE) || 1; // how many times longer all may take, on a machine that does much else

// Opens a page, at first 1280 by 800.
export async function open(program, url) {
  const profile = fs.mkdtempSync(path.join(os.tmpdir(), "playground-"));
  const words = ["--headless=new", "--no-sandbox", "--disable-gpu", "--no-first-run", "--remote-debugging-port=0", `--user-data-dir=${profile}`, "about:blank"];
  const child = spawn(program, words, { stdio: ["ignore", "ignore", "pipe"] });
  const ended = new Promise((done) => child.on("exit", done));
  const port = await new Promise((done, fail) => {
    let text = "";
    const late = setTimeout(() => fail(new Error(`chromium does not start: ${text.slice(-400)}`)), 60000);
    child.stderr.on("data", (part) => {
      text += part;
      const found = /ws:\/\/127\.0\.0\.1:(\d+)/.exec(text);
      if (found) {
        clearTimeout(late);
        done(found[1]);
      }
    });
    child.on("exit", () => fail(new Error(`chromium ended: ${text.slice(-400)}`)));
  });
  const targets = await (await fetch(`http://127.0.0.1:${port}/json`)).json();
  const socket = new WebSocket(targets.find((it) => it.type === "page").webSocketDebuggerUrl);
  await new Promise((done, fail) => {
    socket.onopen = done;
    socket.onerror = fail;
  });
  const asked = new Map(), errors = [];
  let loaded = () => {};
  let number = 0;
  socket.onmessage = ({ data }) => {
    const told = JSON.parse(data);
    if (told.method === "Page.loadEventFired") loaded();
    if (told.method === "Runtime.exceptionThrown") errors.push(told.params.exceptionDetails.exception?.description || told.params.exceptionDetails.text);
    const then = asked.get(told.id);
    asked.delete(told.id);
    if (then) told.error ? then.fail(new Error(told.error.message)) : then.done(told.result);
  };
  const lost = new Error("chromium ended in the middle");
  socket.onclose = () => {
    for (const { fail } of asked.values()) fail(lost);
    asked.clear();
  };
  const send = (method, params = {}) => new Promise((done, fail) => {
    if (socket.readyState !== WebSocket.OPEN) return fail(lost);
    number += 1;
    asked.set(number, { done, fail });
    socket.send(JSON.stringify({ id: number, method, params }));
  });
  // Does what loads a page, and waits for that.
  const loading = async (method, params) => {
    const there = new Promise((done) => { loaded = done; });
    await send(method, params);
    await Promise.race([there, pause(30000 * PATIENCE)]);
  };
  const browser = {
    errors,
    send,
    // Opens a page from nothing. (A page that is asked for before another one is there may never come.)
    async go(to) {
      for (const url of ["about:blank", to]) await loading("Page.navigate", { url });
    },
    reload: () => loading("Page.reload", {}),
    // The value of an expression in the page.
    async value(expression) {
      const told = await send("Runtime.evaluate", { expression, awaitPromise: true, returnByValue: true });
      if (told.exceptionDetails) throw new Error(told.exceptionDetails.exception?.description || told.exceptionDetails.text);
      return told.result.value;
    },
    // Waits until an expression is true, and gives its value.
    async until(expression, seconds = 20) {
      for (const end = Date.now() + 1000 * seconds * PATIENCE; Date.now() < end; await pause(25)) {
        // (what was asked of a page that is left may have no answer)
        const value = await Promise.race([browser.value(expression).catch(() => null), pause(2000 * PATIENCE)]);
        if (value) return value;
      }
      throw new Error(`not within ${seconds} s: ${expression}`);
    },
    size: (width, height, mobile = false) => send("Emulation.setDeviceMetricsOverride", { width, height, deviceScaleFactor: 1, mobile }),
    scheme: (value) => send("Emulation.setEmulatedMedia", { features: [{ name: "prefers-color-scheme", value }] }),
    async key(name, modifiers = 0) {
      const codes = { Enter: 13, ArrowRight: 39, ArrowLeft: 37, Home: 36, End: 35, Tab: 9, ArrowUp: 38, ArrowDown: 40 };
      const event = { key: name, code: name, windowsVirtualKeyCode: codes[name], modifiers };
      await send("Input.dispatchKeyEvent", { type: "rawKeyDown", ...event });
      await send("Input.dispatchKeyEvent", { type: "keyUp", ...event });
    },
    type: (text) => send("Input.insertText", { text }),
    async picture(file) {
      const { data } = await send("Page.captureScreenshot", { format: "png" });
      fs.writeFileSync(file, Buffer.from(data, "base64"));
    },
    async close() {
      await send("Browser.close").catch(() => {});
      await Promise.race([ended, pause(5000).then(() => child.kill("SIGKILL"))]);
      await ended;
      fs.rmSync(profile, { recursive: true, force: true, maxRetries: 5 });
    },
  };
  await send("Page.enable");
  await send("Runtime.enable");
  await browser.size(1280, 800);
  await browser.go(url);
  return browser;
}
