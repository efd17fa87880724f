// The page in headless Chromium: a port that is a stub, a file, the example, sends, refusals, a log, keys, light and dark, a narrow window.
// usage: node page.mjs FOLDER     screenshots go there
import assert from "node:assert";
import { mkdirSync, writeFileSync } from "node:fs";
import { Browser, serve } from "./browser.mjs";
import { frameOf } from "./oracle.mjs";
import { exampleTable } from "../page/example.mjs";

const folder = process.argv[2];
mkdirSync(folder, { recursive: true });

// a device's session, spelled by the rules of postcard: what has to be shown is known as it is made
const bytesOf = (text) => [...new TextEncoder().encode(text)];
const number = (n) => (n > 127 ? [(n & 127) | 128, ...number(n >> 7)] : [n]);
const zigzag = (n) => number(n >= 0 ? 2 * n : -2 * n - 1);
const session = [0], wanted = {};
const count = (kind) => { wanted[kind] = (wanted[kind] ?? 0) + 1; };
const put = (kind, message) => { session.push(...frameOf(Uint8Array.from(message)), 0); count(kind); };
put("Hello", [0, ...number(bytesOf("pump-3 µC").length), ...bytesOf("pump-3 µC"), 2, 7]);
for (let k = 0; k < 300; k++) {
  const reading = [1, ...number(k % 4), ...zigzag(((k * 137) % 801) - 400), ...(k % 3 ? [1, k % 256] : [0])];
  if (k % 53 === 20) { session.push(...frameOf(Uint8Array.from(reading)).subarray(0, 3), 0); count("damaged"); } // a send that broke off
  else if (k % 61 === 7) { session.push(255, 1, 2, 3, 0); count("damaged"); } // noise
  else if (k % 37 === 5) put("Log", [2, ...number(14), ...bytesOf(`valve ${String(k).padStart(3, "0")} open`)]);
  else if (k % 23 === 7) put("Mean", [3, ...new Uint8Array(new Float32Array([k / 8]).buffer)]);
  else put("Reading", reading);
}
const end = session.length;
session.push(5, 1, 2); // the line is lost inside a frame

const stub = `
  globalThis.written = []; globalThis.fails = false; globalThis.lost = undefined;
  const bytes = Uint8Array.from(${JSON.stringify(session)});
  Object.defineProperty(navigator, "serial", { configurable: true, value: { requestPort: async () => {
    const port = {
      open: async ({ baudRate }) => { if (globalThis.refuses) throw new Error("it is open elsewhere"); globalThis.baud = baudRate; }, 
      close: async () => { if (globalThis.isLocked) throw new TypeError("a write waits"); globalThis.isClosed = true; },
      readable: new ReadableStream({ async start(to) {
        for (let at = 0, n = 1; at < bytes.length; n = (n * 7 + 3) % 61 + 1) { to.enqueue(bytes.slice(at, at + n)); at += n; await new Promise((go) => setTimeout(go, 1)); }
        globalThis.more = (...more) => to.enqueue(Uint8Array.from(more));
        globalThis.lost = () => { port.readable = null; to.error(new Error("the device is gone")); };
      } }),
      writable: { getWriter: () => {
        if (globalThis.isLocked) throw new TypeError("locked");
        globalThis.isLocked = true;
        return {
          async write(it) { if (fails) throw new Error("broken"); if (globalThis.waits) await new Promise((_, no) => { globalThis.ends = no; }); written.push(...it); },
          async abort(reason) { globalThis.ends?.(reason); }, releaseLock() { globalThis.isLocked = false; },
        };
      } },
    };
    return port;
  } } });`;

const server = await serve(), browser = await Browser.start("--window-size=1400,800");
const text = (id) => browser.run(`document.getElementById(${JSON.stringify(id)}).innerText`);
const set = (id, value, type = "input") =>
  browser.run(`{ const it = document.getElementById(${JSON.stringify(id)}); it.value = ${JSON.stringify(value)}; it.dispatchEvent(new Event("${type}")); }`);
const click = (id) => browser.run(`document.getElementById(${JSON.stringify(id)}).click()`);
const counts = async () => Object.fromEntries(Array.from((await text("kinds")).matchAll(/([A-Za-z][a-z ]*?) (\d+)(?: [\d.]+\/s)?(?=\s|$)/g), ([, name, n]) => [name.trim(), Number(n)]));
const rows = (more = "") => browser.run(`[...document.querySelectorAll("#rows tr${more}")].map((it) => [...it.cells].map((cell) => cell.textContent))`);
const saved = async (id) => {
  await browser.run(`globalThis.blobs = []; globalThis.make ??= URL.createObjectURL; URL.createObjectURL = (it) => { blobs.push(it); return make.call(URL, it); };
    HTMLAnchorElement.prototype.click = function () { globalThis.named = this.download; }; document.getElementById("${id}").dispatchEvent(new Event("click"));`);
  return browser.run(`blobs[0].text()`);
};
const drops = (...all) => browser.run(`for (const files of ${JSON.stringify(all)}) {
  const data = new DataTransfer();
  for (const [name, bytes] of files) data.items.add(new File([Uint8Array.from(bytes)], name));
  document.body.dispatchEvent(new DragEvent("drop", { dataTransfer: data, bubbles: true, cancelable: true })); }`);
const drop = (name, content) => browser.run(`{ const data = new DataTransfer();
  data.items.add(new File([${content}], ${JSON.stringify(name)}));
  document.body.dispatchEvent(new DragEvent("drop", { dataTransfer: data, bubbles: true, cancelable: true })); }`);

try {
  // as a file it says what it needs: no browser runs modules of a file
  await browser.open(new URL("../page/index.html", import.meta.url).href);
  await browser.until(`getComputedStyle(document.getElementById("starting")).visibility === "visible"`, "a page that doesn't start says so");
  assert.match(await text("starting"), /needs a web server/);
  browser.thrown.length = 0;

  await browser.open(`${server.url}page/`, stub);
  await browser.until(`document.documentElement.dataset.ready`, "the page is ready");
  assert.equal(await browser.run(`document.getElementById("starting")`), null);

  // what is missing or wrong on the left is said
  assert.match(await text("foot"), /paste a table/);
  await set("table", "{");
  assert.match(await text("wrong"), /the table is no JSON/);
  await set("table", '{"version":2}');
  assert.match(await text("wrong"), /of version 1/);
  await set("table", JSON.stringify({ ...exampleTable, nodes: [{ kind: "new" }] }));
  assert.match(await text("wrong"), /isn't known/);
  await set("sentinel", "xy");
  assert.match(await text("wrong"), /two hexadecimal digits/);
  await set("sentinel", "00");

  // the example, and its screenshot
  await click("example");
  await browser.until(`document.querySelectorAll("#rows tr").length === 7`, "the example's seven lines");
  assert.deepEqual(await counts(), { Hello: 1, Reading: 3, Log: 1, damaged: 1, Mean: 1 });
  assert.deepEqual((await rows(".bad")).map((it) => it.slice(2, 4)), [["damaged", ""]]);
  assert.equal((await rows())[0][3], '{"Hello":{"name":"pump-3 µC","version":[2,7]}}');

  // a port that can't be opened
  await browser.run("globalThis.refuses = true");
  await click("connect");
  await browser.until(`document.getElementById("lost").innerText === "it is open elsewhere"`, "a port that can't be opened is said");
  assert.deepEqual(await browser.run(`["connect", "close", "send"].map((id) => document.getElementById(id).disabled)`), [false, true, true]);
  await browser.run("globalThis.refuses = false");

  // a port: what comes is what was made
  await set("baud", "9600");
  await click("clear");
  await click("connect");
  await browser.until(`globalThis.lost && document.getElementById("foot").innerText.startsWith("${session.length} bytes")`, "all bytes have come");
  await browser.until(`document.querySelectorAll("#rows tr").length >= 300`, "all lines are shown");
  assert.deepEqual(await counts(), wanted);
  assert.equal(await browser.run("baud"), 9600);
  const shownRows = await rows(), firstBad = shownRows.find((it) => it[2] === "damaged");
  assert.ok(shownRows.every((it, i) => i === 0 || Number(it[1].split("–")[0]) > Number(shownRows[i - 1][1].split("–")[0])));
  const [from, to] = firstBad[1].split("–").map(Number);
  assert.equal(firstBad[4], session.slice(from, to).map((it) => it.toString(16).padStart(2, "0")).join(" "));

  // sends: bytes by the rules, refusals with the way, a line that breaks
  await set("json", '{"Reading":{"sensor":7,"level":-200,"light":{"Lit":5}}}');
  await browser.run(`document.getElementById("json").focus()`);
  await browser.key("Enter", "Enter", 2);
  await browser.until(`written.length > 0`, "a message is sent");
  assert.deepEqual(await browser.run("written"), [0, ...frameOf(Uint8Array.from([1, 7, ...zigzag(-200), 1, 5])), 0]);
  assert.match(await text("sent"), /^6 bytes: 01 07 8f 03 01 05$/);
  for (const [json, why] of [
    ['{"Reading":{"sensor":7,"level":99999,"light":"Dark"}}', "Reading.level: expected a number from -32768 to 32767"],
    ['{"Reading":{"sensor":7,"level":1}}', "Reading.light: a field is missing"],
    ['{"Stop":1}', "Stop: the type has no such variant"],
    ['{"Log":"x"', "column 11: the line isn't JSON"],
  ]) {
    await set("json", json);
    await click("send");
    await browser.until(`document.getElementById("refused").innerText === ${JSON.stringify(why)}`, why);
  }
  const shot = await browser.screenshot(1400, 880);
  await browser.run("written.length = 0; fails = true");
  await set("json", '{"Log":"x"}');
  await click("send");
  await browser.until(`document.getElementById("refused").innerText === "not sent: broken"`, "a send that breaks is said");
  await browser.run("fails = false");
  await click("send");
  await browser.until(`written.length === 6`, "the next send begins with a delimiter");
  assert.deepEqual(await browser.run("written"), [0, 4, 2, 1, 120, 0]);

  // while a port is open nothing else is mixed in; a drop that isn't a file does nothing
  await drop("capture.bin", "new Uint8Array(9)");
  await browser.until(`document.getElementById("lost").innerText === "Close the port first."`, "a file beside a port is refused");
  await browser.run(`document.body.dispatchEvent(new DragEvent("drop", { dataTransfer: new DataTransfer(), bubbles: true, cancelable: true }))`);
  assert.deepEqual(await counts(), wanted);

  // the log, the bytes, a filter, keys
  const log = (await saved("save")).trim().split("\n").map((it) => JSON.parse(it));
  assert.equal(log.length, 301);
  assert.equal(log.filter((it) => it.damaged).length, wanted.damaged);
  assert.deepEqual(log[0].value, { Hello: { name: "pump-3 µC", version: [2, 7] } });
  await saved("saveBytes");
  assert.deepEqual(await browser.run(`(async () => [...new Uint8Array(await blobs[0].arrayBuffer())])()`), session);
  await set("filter", "valve");
  assert.equal((await rows()).length, wanted.Log);
  await set("filter", "");
  await browser.run("document.activeElement.blur()");
  await browser.key("/", "Slash");
  assert.equal(await browser.run("document.activeElement.id"), "filter");
  await browser.run(`document.getElementById("log").focus()`);
  await browser.key("ArrowDown");
  await browser.key("ArrowDown");
  await browser.key("Enter");
  assert.equal(await browser.run(`[...document.querySelectorAll("#rows tr")].indexOf(document.activeElement)`), 1);
  assert.equal(await browser.run(`document.activeElement.className`), "open");

  // the line is lost inside a frame
  await browser.run("lost()");
  await browser.until(`globalThis.isClosed`, "the port is closed");
  assert.match(await text("lost"), /the device is gone/);
  await browser.until(`document.querySelector("#rows tr:last-child td.kind").textContent === "cut"`, "what is begun is cut");
  assert.equal((await rows(":last-child"))[0][1], `${end}–${session.length}`);

  // a captured file, a table that is dropped, bytes without a table
  await drop("capture.bin", `Uint8Array.from(${JSON.stringify(session.slice(0, end))})`);
  await browser.until(`document.getElementById("foot").innerText.startsWith("${end} bytes")`, "a file was read");
  assert.deepEqual(await counts(), wanted);
  await drop("other.json", JSON.stringify(JSON.stringify(exampleTable)));
  await browser.until(`document.getElementById("type").options.length === 3`, "a table was dropped");
  await set("form", "counted", "change");
  const counted = [...frameOf(Uint8Array.of(2, 104, 105)), 0, ...frameOf(Uint8Array.of(5, 1)), 0];
  await drop("bytes.bin", `Uint8Array.from(${JSON.stringify(counted)})`);
  await browser.until(`document.querySelectorAll("#rows tr").length === 2`, "bytes are shown");
  assert.deepEqual((await rows()).map((it) => it.slice(2, 4)), [["message", '"hi"'], ["damaged", ""]]);

  // files in a row and at once: each has a receiver and a line of its own
  await drops([["one.bin", [...counted, 3, 2]]], [["two.bin", counted], ["three.bin", [104, 105, 0]]]);
  await browser.until(`document.getElementById("files").innerText.includes("three.bin")`, "three files were read");
  assert.deepEqual((await text("files")).trim().split("\n"), [`one.bin: ${counted.length + 2} bytes, messages 1, damaged 2`,
    `two.bin: ${counted.length} bytes, messages 1, damaged 1`, "three.bin: 3 bytes, messages 0, damaged 1"]);
  await browser.until(`document.querySelectorAll("#rows tr").length === 6`, "the files' lines are shown");
  assert.deepEqual((await rows()).map((it) => it[2]), ["message", "damaged", "cut", "message", "damaged", "damaged"]);

  // bytes in a value, by a word
  const blob = { version: 1, types: [{ name: "Blob", line: 1, node: 0 }], nodes: [{ kind: "struct", fields: [{ name: "data", node: 1 }], size: null }, { kind: "bytes", size: null }] };
  await set("form", "value", "change");
  await set("table", JSON.stringify(blob));
  for (const [word, text] of [["false", '{"data":[1,255]}'], ["true", '{"data":"01ff"}']]) {
    await browser.run(`{ const it = document.getElementById("hex"); it.checked = ${word}; it.dispatchEvent(new Event("change")); }`);
    await drop("blob.bin", `Uint8Array.of(4, 2, 1, 255, 0)`);
    await browser.until(`document.querySelector("#rows td.text")?.textContent === ${JSON.stringify(text)}`, text);
  }

  // a table of any name, and a variant that is called as what is no message
  const choose = (id, name, content) => browser.run(`{ const data = new DataTransfer(), it = document.getElementById("${id}");
    data.items.add(new File([${content}], "${name}"));
    it.files = data.files;
    it.dispatchEvent(new Event("change")); }`);
  await choose("tableFile", "types.txt", JSON.stringify(JSON.stringify({ version: 1, types: [{ name: "Event", line: 1, node: 0 }],
    nodes: [{ kind: "enum", variants: [{ name: "damaged", node: 1 }], size: 1 }, { kind: "empty", size: 0 }] })));
  await browser.until(`document.getElementById("type").value === "Event"`, "a table was chosen");
  await choose("file", "events.bin", "Uint8Array.of(1, 1, 0, 1, 1, 0, 9, 0)");
  await browser.until(`document.getElementById("foot").innerText.includes("2 messages, 1 damaged")`, "its variants are messages");
  assert.match(await text("kinds"), /damaged 2\b.*\n*damaged 1\b/);

  // a setting that is changed inside a frame: its end, which would be a message by itself, is none
  await set("form", "plain", "change");
  await click("clear");
  await browser.run("globalThis.lost = undefined; globalThis.isClosed = false");
  await click("connect");
  await browser.until(`globalThis.lost && document.getElementById("foot").innerText.startsWith("${session.length} bytes")`, "all bytes have come again");
  await set("sentinel", "00");
  await click("clear");
  await browser.run("more(2, 104, 0, 2, 105, 0)");
  await browser.until(`document.querySelectorAll("#rows tr").length > 0`, "the next message is shown");
  assert.deepEqual((await rows()).map((it) => [it[1], it[3]]), [["3–5", '"i"']]);
  // a send that waits, as for a device that takes nothing, doesn't keep the port open
  await browser.run("waits = true");
  await set("json", "01");
  await click("send");
  await browser.until("globalThis.ends", "a send waits");
  await click("send");
  await browser.until(`document.getElementById("refused").innerText === "not sent: locked"`, "another send is refused meanwhile");
  await click("close");
  await browser.until(`globalThis.isClosed`, "the port is closed again");
  await browser.until(`document.getElementById("refused").innerText === "not sent: the port was closed"`, "the send that waited is said");

  // of long lines no more is kept than of the bytes
  await set("form", "plain", "change");
  await drop("long.bin", "new Uint8Array(72e6).map((_, i) => (i % 60000 ? 255 : 0))");
  await browser.until(`document.getElementById("foot").innerText.includes("lines aren't kept any more")`, "the first long lines go");

  // what the page asks for, and what it says of itself
  assert.deepEqual([...new Set(server.asked)].filter((it) => !it.startsWith("/favicon")).sort(),
    ["/frames.mjs", "/frames.wasm", "/page/", "/page/app.mjs", "/page/example.mjs", "/page/lines.mjs", "/table.mjs"]);
  assert.match(await text("proved"), /Not proved, but tested/);
  assert.equal(await browser.run(`document.querySelectorAll("button, input, select, textarea").length ===
    [...document.querySelectorAll("button, input, select, textarea")].filter((it) => it.textContent.trim() || it.getAttribute("aria-label") || it.closest("label")).length`), true);
  assert.deepEqual(browser.thrown, []);

  // as it looks
  writeFileSync(`${folder}/light.png`, shot);
  await set("form", "value", "change");
  await click("example");
  await browser.until(`document.querySelectorAll("#rows tr").length === 7`, "the example again");
  writeFileSync(`${folder}/dark.png`, await browser.screenshot(1400, 800, true));
  writeFileSync(`${folder}/narrow.png`, await browser.screenshot(420, 1500));
  assert.ok(await browser.run("document.documentElement.scrollWidth <= 420"), "a narrow window isn't scrolled sideways");
  console.log(`the page: ${log.length} frames of a port, ${wanted.damaged} damaged as made; sends, refusals, a log, a file, keys`);
} finally {
  await browser.close();
  server.close();
}
