// A headless Chromium, driven over a pair of pipes, and a server of this folder: nothing but Node, Chromium and Python.
import { spawn } from "node:child_process";
import { mkdtempSync, rmSync } from "node:fs";
import { tmpdir } from "node:os";
import { fileURLToPath } from "node:url";

const TOP = fileURLToPath(new URL("..", import.meta.url));

const LIMIT = 120;
/** What a promise brings, or an error that says what was waited for. */
async function inTime(what, promise) {
  let timer;
  try {
    return await Promise.race([promise, new Promise((_, no) => { timer = setTimeout(() => no(new Error(`${what} in ${LIMIT} s`)), 1000 * LIMIT); })]);
  } finally { clearTimeout(timer); }
}

/** Serves this folder, by the command that README.md has. */
export async function serve() {
  const asked = [];
  const child = spawn("python3", ["-u", "-m", "http.server", "0", "--bind", "127.0.0.1", "--directory", TOP], { stdio: ["ignore", "pipe", "pipe"] });
  child.stderr.setEncoding("utf8").on("data", (text) => { for (const [, path] of text.matchAll(/"GET (\S+) /g)) asked.push(path); });
  const port = await inTime("python3 -m http.server says no port", new Promise((go, no) => {
    let said = "";
    child.stdout.setEncoding("utf8").on("data", (text) => { const found = /port (\d+) /.exec(said += text); if (found) go(found[1]); });
    child.on("exit", () => no(new Error("python3 -m http.server ended")));
  })).catch((error) => { child.kill(); throw error; });
  return { url: `http://127.0.0.1:${port}/`, asked, close: () => child.kill() };
}

export class Browser {
  #child; #folder; #waiting = new Map(); #next = 0; #session; #rest = ""; #ended;
  /** What the page said on its console, and what it threw. */
  said = []; thrown = []; downloads = [];
  static async start(...flags) {
    const it = new Browser();
    it.#folder = mkdtempSync(`${tmpdir()}/chromium-`);
    const words = ["--headless=new", "--no-sandbox", "--disable-gpu", "--disable-dev-shm-usage", "--hide-scrollbars", "--remote-debugging-pipe",
      `--user-data-dir=${it.#folder}`, ...flags, "about:blank"];
    it.#child = spawn("chromium", words, { stdio: ["ignore", "ignore", "ignore", "pipe", "pipe"] });
    it.#child.stdio[4].setEncoding("utf8").on("data", (text) => it.#read(text));
    it.#child.stdio[3].on("error", () => {}); // of one that has ended, which is said next
    it.#child.on("exit", (status, signal) => {
      it.#ended = `chromium ended with ${signal ?? `status ${status}`}`;
      for (const { no, what } of it.#waiting.values()) no(new Error(`${it.#ended} before it answered ${what}`));
      it.#waiting.clear();
    });
    try {
      const { targetInfos } = await it.call("Target.getTargets");
      const { targetId } = targetInfos.find(({ type }) => type === "page");
      it.#session = (await it.call("Target.attachToTarget", { targetId, flatten: true })).sessionId;
      await it.call("Runtime.enable");
      await it.call("Page.enable");
    } catch (error) { it.#child.kill("SIGKILL"); throw error; }
    return it;
  }
  #read(text) {
    const parts = (this.#rest + text).split("\0");
    this.#rest = parts.pop();
    for (const part of parts) {
      const { id, result, error, method, params } = JSON.parse(part);
      if (id) {
        const { go, no } = this.#waiting.get(id) ?? {};
        if (!this.#waiting.delete(id)) continue; // it took too long, as was said
        if (error) no(new Error(error.message)); else go(result);
      } else if (method === "Runtime.consoleAPICalled") this.said.push(params.args.map((it) => it.value ?? it.description).join(" "));
      else if (method === "Runtime.exceptionThrown") this.thrown.push(params.exceptionDetails.exception?.description ?? params.exceptionDetails.text);
    }
  }
  call(method, params = {}) {
    const id = ++this.#next, what = `${method} ${JSON.stringify(params).slice(0, 200)}`;
    if (this.#ended) return Promise.reject(new Error(`${this.#ended} before ${what}`));
    return inTime(`chromium doesn't answer ${what}`, new Promise((go, no) => {
      this.#waiting.set(id, { go, no, what });
      this.#child.stdio[3].write(`${JSON.stringify({ id, method, params, sessionId: this.#session })}\0`);
    })).finally(() => this.#waiting.delete(id));
  }
  async run(expression) {
    const { result, exceptionDetails } = await this.call("Runtime.evaluate", { expression, awaitPromise: true, returnByValue: true, userGesture: true });
    if (exceptionDetails) throw new Error(exceptionDetails.exception?.description ?? exceptionDetails.text);
    return result.value;
  }
  /** Waits until an expression is true. */
  async until(expression, what = expression) {
    for (const end = Date.now() + 60000; !(await this.run(`!!(${expression})`)); ) {
      if (Date.now() > end) throw new Error(`not so in a minute: ${what}\n${this.thrown.join("\n")}`);
      await new Promise((go) => setTimeout(go, 50));
    }
  }
  async open(url, before = "") {
    if (before) await this.call("Page.addScriptToEvaluateOnNewDocument", { source: before });
    await this.call("Page.navigate", { url });
    await this.until(`location.href === ${JSON.stringify(url)} && document.readyState === "complete"`);
  }
  async screenshot(width, height, dark = false) {
    await this.call("Emulation.setDeviceMetricsOverride", { width, height, deviceScaleFactor: 1, mobile: false });
    await this.call("Emulation.setEmulatedMedia", { features: [{ name: "prefers-color-scheme", value: dark ? "dark" : "light" }] });
    await new Promise((go) => setTimeout(go, 300));
    return Buffer.from((await this.call("Page.captureScreenshot", { format: "png" })).data, "base64");
  }
  async key(key, code = key, modifiers = 0) {
    const text = key.length === 1 ? key : undefined, keyCode = { Enter: 13, ArrowDown: 40, ArrowUp: 38, Tab: 9 }[key] ?? key.charCodeAt(0);
    for (const type of ["keyDown", "keyUp"]) {
      await this.call("Input.dispatchKeyEvent", { type, key, code, modifiers, windowsVirtualKeyCode: keyCode, ...(type === "keyDown" && text ? { text } : {}) });
    }
  }
  async close() {
    const over = this.#ended ?? new Promise((go) => this.#child.on("exit", go));
    try { await this.call("Browser.close"); } catch {}
    try { await inTime("chromium doesn't end", over); } catch (error) { this.#child.kill("SIGKILL"); console.log(error.message); }
    rmSync(this.#folder, { recursive: true, force: true, maxRetries: 5 });
  }
}
