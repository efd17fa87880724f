// The page: a serial port or a file in, lines out. lines.mjs has what doesn't touch the page.
import { load } from "../frames.mjs";
import { Table, Wrong } from "../table.mjs";
import { exampleBytes, exampleTable } from "./example.mjs";
import { Files, hexOf, Kept, Lines, logLine, Writing } from "./lines.mjs";

const it = (id) => document.getElementById(id);
const SHOWN = 500, KEPT = 100000, KEPT_BYTES = 1 << 26, WINDOW = 2000;
let table, lines, writing, port, reader, writer;
let began = performance.now(), entries = [], held = 0, dropped = 0, kept = new Kept(KEPT_BYTES), kinds = new Map(), recent = [], fresh = [], paused = false;
let last; // byte that came of the port

const form = () => it("form").value;
const settings = () => ({ form: form(), table, type: it("type").value, sentinel: parseInt(it("sentinel").value || "0", 16), hex: it("hex").checked });

/** Takes what is typed on the left; says what is wrong with it. */
function settle() {
  it("wrong").textContent = "";
  lines = writing = undefined;
  const isValue = form() === "value";
  for (const id of ["table", "tableFile", "type", "hex"]) it(id).disabled = !isValue;
  it("json").placeholder = isValue ? "a value of the type, as JSON" : 'hexadecimal digits, or a text in quotes: "hi"';
  try {
    if (!/^[0-9a-fA-F]{1,2}$/.test(it("sentinel").value)) throw new Error("a delimiter is two hexadecimal digits, as 00 or 0a");
    if (isValue) {
      if (!it("table").value.trim()) {
        it("type").replaceChildren();
        return show();
      }
      let read;
      try { read = JSON.parse(it("table").value); } catch { throw new Error("the table is no JSON: paste what `wire check FILES json` prints"); }
      table = new Table(read);
      const chosen = it("type").value, sizes = table.types.map(({ node }) => table.nodes[node].size);
      const { names } = table;
      it("type").replaceChildren(...names.map((name, i) => new Option(sizes[i] === null ? name : `${name} (up to ${sizes[i]} bytes)`, name)));
      it("type").value = names.includes(chosen) ? chosen : names.at(-1);
    }
    begin();
  } catch (error) { it("wrong").textContent = error.message; }
  it("send").disabled = !port || !writing;
  show();
}
/** Begins a stream anew; of an open port, by other settings, where it is. */
function begin() {
  const chosen = settings(), isInside = port !== undefined && last !== undefined && last !== chosen.sentinel;
  if (chosen.form === "value" && !chosen.type) { lines = writing = undefined; return; }
  lines = new Lines(chosen, isInside);
  writing = new Writing(chosen);
}
function clear() {
  [entries, held, kept, recent, fresh, dropped] = [[], 0, new Kept(KEPT_BYTES), [], [], 0];
  kinds = new Map();
  began = performance.now();
  it("rows").replaceChildren();
  it("files").textContent = "";
  show();
}

/** Takes bytes from the line. */
export function take(bytes) {
  keep(bytes);
  last = bytes.at(-1) ?? last;
  if (lines) note(lines.push(bytes));
}
function keep(bytes) {
  kept.push(bytes);
  recent.push([performance.now(), bytes.length]);
}
const sizeOf = ({ bytes, text }) => bytes.length + text.length;
function note(found, now = performance.now()) {
  for (const entry of found) {
    entry.seconds = (now - began) / 1000;
    const name = `${entry.bad} ${entry.kind}`, kind = kinds.get(name) ?? { count: 0, name: entry.kind, bad: entry.bad, times: [] }; // a variant may be called `damaged`
    kind.count++;
    kind.times.push(now);
    kinds.set(name, kind);
    entries.push(entry);
    held += sizeOf(entry);
    fresh.push(entry);
  }
  let gone = 0;
  while (entries.length - gone > KEPT || held > KEPT_BYTES) held -= sizeOf(entries[gone++]);
  if (gone) dropped += entries.splice(0, gone).length;
  if (fresh.length > SHOWN) fresh = fresh.slice(-SHOWN);
}

const isWanted = ({ kind, text, bytes }) => {
  const wanted = it("filter").value.trim().toLowerCase();
  return !wanted || `${kind} ${text} ${hexOf(bytes)}`.toLowerCase().includes(wanted);
};
function rowOf(entry) {
  const row = document.createElement("tr");
  row.tabIndex = -1;
  if (entry.file) row.title = entry.file;
  if (entry.bad) row.className = "bad";
  const texts = { time: entry.seconds.toFixed(3), place: `${entry.from}–${entry.to}`, kind: entry.kind, text: entry.text, hex: hexOf(entry.bytes, 64) };
  for (const [name, text] of Object.entries(texts)) {
    const cell = row.insertCell();
    cell.className = name;
    cell.textContent = text;
  }
  row.onclick = () => open(row, entry);
  row.onkeydown = (event) => { if (event.key === "Enter") open(row, entry); };
  return row;
}
/** Shows all bytes of a row, or again only the first. */
function open(row, entry) {
  row.classList.toggle("open");
  row.lastChild.textContent = hexOf(entry.bytes, row.classList.contains("open") ? 4096 : 64);
}
/** Draws what has come since the last time. */
function draw() {
  if (!paused && fresh.length) {
    const log = it("log"), atEnd = log.scrollTop + log.clientHeight >= log.scrollHeight - 40;
    it("rows").append(...fresh.filter(isWanted).map(rowOf));
    while (it("rows").childElementCount > SHOWN) it("rows").firstElementChild.remove();
    fresh = [];
    if (atEnd) log.scrollTop = log.scrollHeight;
  }
  show();
}
function redraw() {
  fresh = [];
  it("rows").replaceChildren(...entries.filter(isWanted).slice(-SHOWN).map(rowOf));
  it("log").scrollTop = it("log").scrollHeight;
}
/** The counts and rates, which are averages over the last two seconds. */
function show() {
  const now = performance.now(), span = (name, text) => Object.assign(document.createElement("span"), { className: name, textContent: text });
  it("kinds").replaceChildren(...[...kinds.values()].map((kind) => {
    kind.times = kind.times.filter((time) => now - time < WINDOW);
    const rate = kind.times.length / (WINDOW / 1000), whole = span(kind.bad ? "bad" : "", `${kind.name} ${kind.count}`);
    if (rate) whole.append(span("rate", ` ${rate.toFixed(1)}/s`));
    return whole;
  }));
  recent = recent.filter(([time]) => now - time < WINDOW);
  const all = [...kinds.values()].reduce((sum, { count }) => sum + count, 0), bad = [...kinds.values()].reduce((sum, it) => sum + (it.bad ? it.count : 0), 0);
  const rate = recent.reduce((sum, [, n]) => sum + n, 0) / (WINDOW / 1000);
  it("foot").textContent = [`${lines?.bytes ?? 0} bytes`, rate && `${rate.toFixed(0)} bytes/s`, all && `${all - bad} messages, ${bad} damaged`,
    dropped && `the first ${dropped} lines aren't kept any more`, !lines && "paste a table, or choose bytes, to see messages"].filter(Boolean).join(" · ");
}

async function connect() {
  it("lost").textContent = "";
  if (isBusy()) return;
  const chosen = await navigator.serial.requestPort();
  await chosen.open({ baudRate: Number(it("baud").value) });
  if (isBusy()) return chosen.close(); // a file was dropped meanwhile
  [port, last] = [chosen, undefined];
  it("connect").disabled = true;
  it("close").disabled = false;
  begin();
  it("send").disabled = !writing;
  let closing = false;
  it("close").onclick = () => { closing = true; reader?.cancel(); };
  while (port.readable && !closing) { // a line error ends a stream, and the port has another one then
    reader = port.readable.getReader();
    try {
      for (let chunk; !(chunk = await reader.read()).done; ) take(chunk.value);
      closing = true;
    } catch (error) { it("lost").textContent = `the line: ${error.message}`; } finally { reader.releaseLock(); }
  }
  ended();
  it("close").disabled = it("send").disabled = true;
  try {
    const held = writer; // of a send that waits, as for a device that takes nothing: it would keep the port open
    await held?.abort(new Error("the port was closed"));
    held?.releaseLock();
    await port.close();
  } catch {}
  port = undefined;
  it("connect").disabled = false;
}
/** The stream is over: what is begun is cut off. */
function ended() {
  if (lines) note(lines.finish());
}
/** Whether a port is open or a file is read, which another stream must not be mixed with. */
function isBusy() {
  if (port) it("lost").textContent = "Close the port first.";
  else if (files.isReading) it("lost").textContent = "A file is being read.";
  return port !== undefined || files.isReading;
}
/** Each captured file has a receiver and a line of its own. */
const files = new Files({
  table(text) { it("table").value = text; settle(); },
  begin(isFirst) {
    if (port) return void isBusy();
    begin();
    if (isFirst) clear();
    if (!lines) throw new Error("not read: paste a table, or choose bytes");
    return lines;
  },
  note(found, bytes) { keep(bytes); note(found); },
  report(line) { it("files").textContent += `${line}\n`; },
  fail(line) { it("lost").textContent = line; },
});
async function send() {
  it("refused").textContent = it("sent").textContent = "";
  let own;
  try {
    writer = own = port.writable.getWriter();
    const message = await writing.write(own, it("json").value);
    it("sent").textContent = `${message.length} bytes: ${hexOf(message, 32)}`;
  } catch (error) { it("refused").textContent = error instanceof Wrong ? error.message : `not sent: ${error.message}`; } finally {
    own?.releaseLock();
    if (writer === own) writer = undefined;
  }
}
function save(name, type, parts) {
  const link = document.createElement("a");
  link.href = URL.createObjectURL(new Blob(parts, { type }));
  link.download = name;
  link.click();
  setTimeout(() => URL.revokeObjectURL(link.href), 10000);
}
function pause() {
  paused = !paused;
  it("pause").setAttribute("aria-pressed", String(paused));
  it("pause").textContent = paused ? "Go on" : "Pause";
  if (!paused) redraw();
}
/** Arrow keys go from line to line, and / to the search. */
function key(event) {
  if (event.key === "/" && !/INPUT|TEXTAREA|SELECT/.test(document.activeElement.tagName)) {
    event.preventDefault();
    return it("filter").focus();
  }
  const row = document.activeElement.closest?.("#rows tr"), inLog = row || document.activeElement === it("log");
  if (!inLog || !["ArrowDown", "ArrowUp"].includes(event.key)) return;
  event.preventDefault();
  const down = event.key === "ArrowDown";
  (row ? (down ? row.nextElementSibling : row.previousElementSibling) : down ? it("rows").firstElementChild : it("rows").lastElementChild)?.focus();
}

await load();
it("log").tabIndex = 0;
for (const id of ["form", "type", "sentinel", "table"]) it(id).addEventListener(id === "type" || id === "form" ? "change" : "input", settle);
for (const id of ["tableFile", "file"]) {
  it(id).onchange = () => {
    files.take(it(id).files, id === "tableFile");
    it(id).value = ""; // the same file may be chosen again
  };
}
it("hex").onchange = settle;
it("connect").onclick = () => connect().catch((error) => { it("lost").textContent = error.message; });
it("send").onclick = send;
it("json").onkeydown = (event) => { if (event.key === "Enter" && (event.ctrlKey || event.metaKey) && !it("send").disabled) send(); };
it("pause").onclick = pause;
it("clear").onclick = clear;
it("filter").oninput = redraw;
it("save").onclick = () => save("messages.jsonl", "application/json", entries.map((entry) => `${logLine(entry)}\n`));
it("saveBytes").onclick = () => save("line.bin", "application/octet-stream", kept.parts);
it("example").onclick = () => {
  if (isBusy()) return;
  it("form").value = "value";
  it("table").value = JSON.stringify(exampleTable);
  settle();
  it("type").value = "Message";
  settle();
  clear();
  take(exampleBytes);
};
addEventListener("keydown", key);
document.body.ondragover = (event) => { event.preventDefault(); document.body.classList.add("over"); };
document.body.ondragleave = () => document.body.classList.remove("over");
document.body.ondrop = (event) => {
  event.preventDefault();
  document.body.classList.remove("over");
  files.take(event.dataTransfer.files);
};
if (!("serial" in navigator)) {
  it("connect").disabled = true;
  it("lost").textContent = "This browser has no Web Serial: Chrome and Edge have it, over https or from localhost. A captured file can be dropped.";
}
settle();
setInterval(draw, 100);
it("starting").remove();
document.documentElement.dataset.ready = "yes";
