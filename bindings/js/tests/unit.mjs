// frames.mjs beside oracle.mjs: messages, broken and changed lines, streams, refusals.
// usage: node unit.mjs [ROUNDS | SECONDSs]     a module in the place of ../frames.wasm: FRAMES_WASM
import assert from "node:assert";
import { File } from "node:buffer";
import { getEventListeners } from "node:events";
import { readFileSync } from "node:fs";
import { PassThrough, Readable, Writable } from "node:stream";
import { runInNewContext } from "node:vm";
import * as frames from "../frames.mjs";
import { Files, Kept, Lines, logLine, Writing } from "../page/lines.mjs";
import { Table, Wrong } from "../table.mjs";
import * as oracle from "./oracle.mjs";

const told = process.argv[2] ?? "400", isTimed = told.endsWith("s"), until = Date.now() + 1000 * parseInt(told, 10);
await frames.load(process.env.FRAMES_WASM ? readFileSync(process.env.FRAMES_WASM) : undefined);

let seed = 1;
const some = (n) => { seed = (seed * 1103515245 + 12345) & 0x7fffffff; return (seed >> 8) % n; };
const LENGTHS = [0, 1, 5, 20, 126, 127, 128, 129, 253, 254, 255, 300, 508, 509, 1000];
const message = () => Uint8Array.from({ length: some(20) ? LENGTHS[some(LENGTHS.length)] : 16383 + some(3) }, () => (some(3) ? 1 + some(255) : some(3)));
const sentinel = () => [0, 0, 10, 255][some(4)];
const masked = (bytes, by) => Uint8Array.from(bytes, (it) => it ^ by);

function whole() {
  const m = message(), s = sentinel(), f = frames.encode(m, { sentinel: s });
  assert.deepEqual(f, masked(oracle.frameOf(m), s));
  assert.deepEqual(frames.decode(f, { sentinel: s }), m);
  assert.deepEqual(frames.decode(Uint8Array.of(...f, s), { sentinel: s }), m);
  const changed = f.slice();
  changed[some(changed.length)] = some(256);
  const at = changed.indexOf(s), front = at < 0 ? changed : changed.subarray(0, at);
  const wanted = at < 0 || at === changed.length - 1 ? oracle.messageOf(masked(front, s)) : undefined;
  if (wanted) assert.deepEqual(frames.decode(changed, { sentinel: s }), wanted);
  else assert.throws(() => frames.decode(changed, { sentinel: s }), RangeError);
  const sealed = frames.seal(m);
  assert.deepEqual(frames.unseal(sealed), m);
  assert.equal(new DataView(sealed.buffer).getUint32(m.length, true), frames.crc32(m));
  sealed[some(sealed.length)] ^= 1 + some(255);
  assert.equal(frames.unseal(sealed), undefined);
}
/** The same bytes through both, in other chunks. */
function stream() {
  const options = { sentinel: sentinel(), plain: some(3) === 0 }, limit = some(3) ? 1100 : some(40);
  const sender = new frames.Sender(options), other = new oracle.Sender(options), line = [];
  for (let j = some(8); j > 0; j--) {
    const m = message(), out = sender.send(m);
    assert.deepEqual(out, other.send(m));
    if (some(3)) { sender.sent(); other.sent(); line.push(...out); } else line.push(...out.subarray(0, some(out.length)));
    if (some(6) === 0 && line.length) line[some(line.length)] = some(256);
    if (some(10) === 0) line.push(...Array.from({ length: some(30) }, () => some(256)));
  }
  const receiver = new frames.Receiver(limit, options), wanted = new oracle.Receiver(limit, options);
  for (let at = 0; at < line.length; ) {
    const chunk = Uint8Array.from(line.slice(at, at += 1 + some(some(2) ? 60 : 5000)));
    assert.deepEqual(receiver.push(chunk), wanted.push(chunk));
    assert.equal(receiver.begun, wanted.begun);
  }
  assert.deepEqual(receiver.finish(), wanted.finish());
}
async function streams() {
  const chunks = [Buffer.from("00040268690005616263", "hex"), Buffer.from("000402796f", "hex")];
  const wanted = ["message 5", "damaged 10", "cut undefined"]; // places in the stream, whatever its chunks are
  const kinds = async (source) => { const found = []; for await (const event of source) found.push(`${event.kind} ${event.end}`); return found; };
  assert.deepEqual(await kinds(frames.receive(Readable.from(chunks), 8)), wanted);
  assert.deepEqual(await kinds(frames.receive(chunks, 8)), wanted);
  assert.deepEqual(await kinds(frames.receive(new ReadableStream({ start(to) { for (const it of chunks) to.enqueue(it); to.close(); } }), 8)), wanted);
  const piped = new ReadableStream({ start(to) { for (const it of chunks) to.enqueue(it); to.close(); } }).pipeThrough(frames.receiverStream(8));
  assert.deepEqual(await kinds(piped), wanted);
  const lots = new frames.Receiver(4); // chunks longer than one call takes
  assert.equal(lots.push(new Uint8Array(200000).fill(7)).length, 1);
  const out = [], sender = new frames.Sender();
  let fails = true;
  const writer = { async write(bytes) { if (fails) { out.push(...bytes.subarray(0, 3)); throw new Error("broken"); } out.push(...bytes); } };
  await assert.rejects(sender.write(writer, Uint8Array.of(1, 2, 3)), /broken/);
  fails = false;
  for (const m of [[4, 5], [6]]) await sender.write(writer, Uint8Array.from(m));
  assert.deepEqual(out, [0, 5, 3, 0, 4, 2, 4, 5, 0, 3, 1, 6, 0]);
  // a write that doesn't say when it is done, as that of a Node stream; a stream in place of its writer
  const mute = new PassThrough(), fresh = new frames.Sender();
  await assert.rejects(fresh.write(mute, Uint8Array.of(1)), /returns no promise: of a Node stream take Writable.toWeb/);
  assert.deepEqual([...fresh.send(Uint8Array.of(1))], [0, 3, 1, 1, 0]);
  for (const it of [new WritableStream(), null, undefined, {}]) await assert.rejects(fresh.write(it, Uint8Array.of(1)), /a writer is needed: stream.getWriter/);
  const heard = new PassThrough();
  await fresh.write(Writable.toWeb(heard).getWriter(), Uint8Array.of(1));
  assert.deepEqual([...heard.read()], [0, 3, 1, 1, 0]);
  // two writes that nobody waited for, the second of which fails: the third begins with a delimiter
  const line = [];
  const second = { async write(bytes) { if (bytes.length > 6) { line.push(...bytes.subarray(0, 4)); throw new Error("broken"); } line.push(...bytes); } };
  const both = await Promise.allSettled([[1, 2], [3, 4, 5, 6]].map((m) => sender.write(second, Uint8Array.from(m))));
  await sender.write(second, Uint8Array.of(7));
  assert.deepEqual(both.map((it) => it.status), ["fulfilled", "rejected"]);
  assert.deepEqual(new frames.Receiver(8).push(Uint8Array.from(line)).map((it) => it.kind), ["message", "damaged", "message"]);
}
const HI = Uint8Array.of(0, 4, 2, 104, 105, 0);
const soon = () => new Promise((go) => setTimeout(go, 5));
/** What a promise becomes, within a minute. */
const within = (promise) => new Promise((go, no) => {
  const late = setTimeout(() => no(new Error("it waits for a minute")), 60000);
  promise.then(go, no).finally(() => clearTimeout(late));
});
/** A wait that is ended, by return() or by a signal: the stream is given back, and keeps what comes then. */
async function ends() {
  for (const [source, said] of [[HI, /write \[bytes\]/], [HI.buffer, /write \[bytes\]/], [null, /a source is needed/], [5, /a source is needed/], [{ readable: 1 }, /port\.readable/]]) {
    await assert.rejects(frames.receive(source, 8).next(), (error) => error instanceof TypeError && said.test(error.message));
  }
  const open = () => { let to; const stream = new ReadableStream({ start(it) { to = it; } }); return [stream, to]; };
  for (const end of ["return", "throw", "abort", "aborted"]) {
    const [stream, to] = open(), stop = new AbortController(), { signal } = stop, events = frames.receive(stream, 8, { signal });
    to.enqueue(Uint8Array.of(...HI, ...HI.subarray(1), 4, 2));
    if (end !== "aborted") assert.equal((await events.next()).value.kind, "message");
    if (end !== "aborted") assert.equal((await events.next()).value.end, 10);
    let waits;
    if (end === "aborted") { stop.abort(); waits = events.next(); } else { waits = events.next(); await soon(); }
    if (end === "return") assert.deepEqual(await within(events.return()), { done: true, value: undefined });
    else if (end === "throw") await assert.rejects(within(events.throw(new Error("mine"))), /mine/);
    else if (end === "abort") stop.abort();
    assert.equal(stream.locked, false, end);
    if (end[0] === "a") await assert.rejects(within(waits), { name: "AbortError" }); else assert.deepEqual(await within(waits), { done: true, value: undefined });
    assert.equal((await within(events.next())).done, true);
    assert.equal(getEventListeners(signal, "abort").length, 0);
    to.enqueue(HI);
    const again = frames.receive(stream, 8), { value } = await within(again.next());
    assert.deepEqual(value.bytes, Uint8Array.of(104, 105), end); // of the stream's next chunk, also if it was aborted before a read
    await within(again.return());
    assert.equal(stream.locked, false);
  }
  // a receiver of one's own keeps the frame that has begun, also one that came as the wait was ended
  for (const part of [2, 3, 4]) {
    const [stream, to] = open(), receiver = new frames.Receiver(8), events = frames.receive(stream, receiver), waits = events.next();
    await soon();
    to.enqueue(HI.subarray(0, part));
    if (part === 3) await soon();
    await within(events.return());
    assert.equal((await within(waits)).done, true);
    to.enqueue(HI.subarray(part));
    const again = frames.receive(stream, receiver);
    assert.deepEqual((await within(again.next())).value, { kind: "message", bytes: Uint8Array.of(104, 105), end: 5 - part, length: 4 });
    await within(again.return());
    assert.throws(() => frames.receiverStream(receiver, { sentinel: 0 }), /give no options with it/);
  }
  // a message that came as the wait was ended is what was waited for
  {
    const [stream, to] = open(), events = frames.receive(stream, 8), waits = events.next();
    await soon();
    to.enqueue(HI);
    const over = events.return();
    assert.deepEqual((await within(waits)).value?.bytes, Uint8Array.of(104, 105));
    assert.equal((await within(over)).done, true);
  }
  // an engine that releases no reader while a read waits: the stream is cancelled
  {
    let go, released = 0;
    const reader = { read: () => new Promise((it) => { go = it; }), async cancel() { go({ done: true }); go = undefined; }, releaseLock() { if (go) throw new TypeError("a read waits"); released++; } };
    const events = frames.receive({ getReader: () => reader }, 8), waits = events.next();
    await soon();
    await within(events.return());
    await soon();
    assert.deepEqual([(await within(waits)).done, released], [true, 1]);
  }
  // a line error ends a port's stream, and the port has another one then: a receiver of one's own goes on there
  {
    const [one, broken] = open(), [two, whole] = open(), own = new frames.Receiver(8), found = [];
    broken.enqueue(HI.subarray(0, 4));
    const waits = frames.receive(one, own).next();
    await soon();
    broken.error(new Error("a framing error"));
    await assert.rejects(within(waits), /a framing error/);
    whole.enqueue(HI.subarray(4));
    whole.close();
    for await (const { kind } of frames.receive(two, own)) found.push(kind);
    assert.deepEqual([one.locked, two.locked, found], [false, false, ["message"]]);
  }
  // a signal between two events: neither is the next one given, nor is the stream kept
  const [stream, to] = open(), stop = new AbortController(), events = frames.receive(stream, 8, { signal: stop.signal });
  to.enqueue(Uint8Array.of(...HI, ...HI));
  await events.next();
  stop.abort(new Error("enough"));
  assert.equal(stream.locked, false);
  await assert.rejects(within(events.next()), /enough/);
  // a stream of Node is destroyed, as `for await` does; an iterable is ended, at once or when what it waits for has come
  const readable = new Readable({ read() {} }), of = frames.receive(readable, 8), waits = of.next();
  await soon();
  await within(of.return());
  assert.deepEqual([(await within(waits)).done, readable.destroyed], [true, true]);
  let isOver = false, go;
  const source = (async function* () { try { yield HI; yield await new Promise((it) => { go = it; }); } finally { isOver = true; } });
  for await (const { kind } of frames.receive(source(), 8)) { assert.equal(kind, "message"); break; }
  assert.equal(isOver, true);
  isOver = false;
  const slow = frames.receive(source(), 8);
  await slow.next();
  const late = slow.next();
  await soon();
  await within(slow.return());
  assert.equal((await within(late)).done, true);
  go(HI);
  await soon();
  assert.equal(isOver, true);
}
/** As many receivers and senders as one likes, each with its own state, whichever is used next. */
function many() {
  const all = [];
  for (let k = 0; k < 20000; k++) {
    const options = { sentinel: k % 3, plain: k % 2 === 1 }, receiver = new frames.Receiver(40, options), sender = new frames.Sender(options);
    const line = Uint8Array.of(...sender.send(Uint8Array.of(1, 0, k >> 8, k)), ...sender.send(Uint8Array.of(k)));
    all.push({ receiver, line, wanted: new oracle.Receiver(40, options), at: 0, sender, other: new oracle.Sender(options) });
  }
  for (let k = 0; k < 60000; k++) {
    const it = all[some(k < 30000 ? all.length : 20)], chunk = it.line.subarray(it.at, it.at += 1 + some(6));
    assert.deepEqual(it.receiver.push(chunk), it.wanted.push(chunk));
    if (some(9) === 0) assert.equal(it.receiver.begun, it.wanted.begun);
    if (some(30) === 0) assert.deepEqual(it.receiver.finish(), it.wanted.finish());
    if (some(4) === 0) { it.sender.sent(); it.other.sent(); }
    assert.deepEqual(it.sender.send(chunk), it.other.send(chunk));
    if (it.at >= it.line.length) it.at = 0;
  }
}
/** A large message doesn't keep the module's memory: what is used next is small again, and receivers keep their states. */
async function large() {
  const made = [], { Instance } = WebAssembly;
  WebAssembly.Instance = function (...words) { const it = new Instance(...words); made.push(it); return it; };
  try {
    const own = await import("../frames.mjs?large"); // with instances of its own
    await own.load(process.env.FRAMES_WASM ? readFileSync(process.env.FRAMES_WASM) : undefined);
    const one = new own.Receiver(2 ** 27), two = new own.Receiver(8), sender = new own.Sender(), lengths = () => made.map((it) => it.exports.memory.buffer.byteLength);
    assert.equal(made.length, 2);
    two.push(HI.subarray(0, 4));
    const line = sender.send(new Uint8Array(7e7).fill(7));
    assert.ok(one.push(line.subarray(0, 7e7)).length === 0 && lengths().every((it) => it > 7e7));
    assert.deepEqual(two.push(HI.subarray(4)).map((it) => it.kind), ["message"]);
    assert.deepEqual(sender.send(Uint8Array.of(104, 105)), HI);
    assert.ok(made.length === 4 && lengths().slice(2).every((it) => it < 1e7), `${lengths()}`);
    assert.deepEqual(one.push(line.subarray(7e7)).map((it) => [it.kind, it.bytes.length]), [["message", 7e7]]);
  } finally { WebAssembly.Instance = Instance; }
}
/** Where memory ends inside a push, all its bytes were taken: what comes next isn't taken for a frame that nobody sent. */
function noMemory() {
  const receiver = new frames.Receiver(32), line = new frames.Sender().send(Uint8Array.of(9, 9, 3, 1, 88)), { slice } = Uint8Array.prototype;
  assert.equal(receiver.begun, 0);
  Uint8Array.prototype.slice = () => { throw new RangeError("Array buffer allocation failed"); };
  try { assert.throws(() => receiver.push(Uint8Array.of(...HI, ...line.subarray(0, 5))), RangeError); } finally { Uint8Array.prototype.slice = slice; }
  assert.deepEqual(receiver.push(line.subarray(5)).map(({ bytes }) => [...bytes]), [[9, 9, 3, 1, 88]]);
}
/** Where there is no memory for a chunk, the front of a frame before it and the end of one after it are no message. */
async function noSpace() {
  const own = await import("../frames.mjs?space"), { grow } = WebAssembly.Memory.prototype; // with instances of its own, which are small
  await own.load(process.env.FRAMES_WASM ? readFileSync(process.env.FRAMES_WASM) : undefined);
  const line = new own.Sender().send(new TextEncoder().encode("abcdefgh")), chunks = [line.subarray(0, 6), new Uint8Array(1 << 24).fill(7), Uint8Array.of(88, 89, 90, 87, 86, ...HI)];
  const receiver = new own.Receiver(1 << 28, { sentinel: 0 }), kinds = async (source) => { const found = []; for await (const event of own.receive(source, receiver)) found.push(event.bytes?.length); return found; };
  const other = new own.Receiver(8);
  other.push(HI.subarray(0, 4));
  WebAssembly.Memory.prototype.grow = () => { throw new RangeError("no memory"); };
  try { await assert.rejects(kinds(chunks.slice(0, 2)), /no memory for/); } finally { WebAssembly.Memory.prototype.grow = grow; }
  assert.deepEqual(other.push(HI.subarray(4)).map((it) => it.kind), ["message"]);
  assert.deepEqual(await kinds(chunks.slice(2)), [2]);
}
/** Files that are dropped in a row or at once: each has a receiver and a report of its own, and tables come first. */
async function dropped() {
  const said = [], slow = (bytes, name) => Object.assign(new File([], name), {
    stream: () => new ReadableStream({ async start(to) { for (const it of bytes) { await soon(); to.enqueue(Uint8Array.of(it)); } to.close(); } }),
  });
  const files = new Files({
    table: (text) => said.push(`table ${text}`), begin: (isFirst) => { said.push(isFirst ? "begin" : "go on"); return new Lines({ form: "counted" }); },
    note: (entries) => { for (const it of entries) said.push(`${it.file} ${it.kind} ${it.from}`); }, report: (line) => said.push(line), fail: (line) => said.push(line),
  });
  const first = files.take([slow([...HI, 3, 2], "one")]);
  await soon();
  assert.equal(files.isReading, true);
  await files.take([slow([104, 105, 0], "two"), slow([], "three"), new File(["{}"], "types.json")]);
  await first;
  assert.deepEqual(said, ["begin", "one message 1", "one cut 6", "one: 8 bytes, messages 1, damaged 1", "table {}", "go on", "two damaged 0",
    "two: 3 bytes, messages 0, damaged 1", "go on", "three: 0 bytes, messages 0, damaged 0"]);
  said.length = 0;
  const gone = Object.assign(new File([], "gone"), { stream() { throw new Error("it isn't there"); } });
  await files.take([gone, slow(HI, "next")]);
  assert.deepEqual(said, ["begin", "gone: it isn't there", "begin", "next message 1", "next: 6 bytes, messages 1, damaged 0"]);
  said.length = 0;
  await files.take([new File(["{}"], "types")], true);
  assert.deepEqual(said, ["table {}"]);
  assert.equal(JSON.parse(logLine({ seconds: 1, file: 'a"b', kind: "cut", bad: true, from: 0, to: 1, bytes: HI })).file, 'a"b');
}
/** What the page keeps of a line: its last bytes, whose cost doesn't depend on the chunks that they came in. */
async function keeps() {
  const kept = new Kept(1 << 20), all = Uint8Array.from({ length: 3000000 }, () => some(256));
  for (let at = 0; at < all.length; ) kept.push(all.subarray(at, at += some(3) ? some(9) : some(200000)));
  const last = new Uint8Array(await new Blob(kept.parts).arrayBuffer());
  assert.ok(last.length >= 1 << 20 && last.length <= (1 << 20) + 65536 && kept.parts.length <= 17);
  assert.deepEqual(Buffer.compare(last, all.subarray(-last.length)), 0);
  kept.push(new Uint8Array(0));
  assert.deepEqual(new Kept(9).parts, []);
}
/** What the page shows: entries with the bytes at their places, whatever the chunks are; texts from which the same bytes are made. */
function lines() {
  for (let k = 0; k < 100; k++) {
    const s = sentinel(), line = Uint8Array.from({ length: some(120) }, () => (some(6) ? s ^ some(5) : some(256)));
    const shown = new Lines({ form: some(2) ? "plain" : "counted", sentinel: s }), entries = [];
    for (let at = 0; at < line.length; ) entries.push(...shown.push(line.subarray(at, at += 1 + some(20))));
    for (const it of [...entries, ...shown.finish()]) assert.deepEqual(it.bytes, line.slice(it.from, it.to));
    for (const it of entries) JSON.parse(logLine({ ...it, seconds: 1 }));
  }
  // inside a frame, whose end would be a message by itself
  const inside = Uint8Array.of(4, 2, 104, 105, 0, 4, 2, 111, 107, 0);
  for (let at = 0; at <= inside.length; at++) {
    const shown = new Lines({ form: "counted" }, true), entries = [inside.subarray(0, at), inside.subarray(at)].flatMap((it) => shown.push(it));
    assert.deepEqual([shown.bytes, ...entries.map(({ from, to, text, bytes }) => [from, to, text, ...bytes])], [10, [5, 9, '"ok"', 4, 2, 111, 107]]);
  }
  const writing = new Writing({ form: "counted" }), shown = new Lines({ form: "counted" }), sender = new frames.Sender();
  for (const m of ["hi", "\ufeffhi", "\n", "é€", ""].map((it) => new TextEncoder().encode(it))) {
    const [{ text }] = shown.push(sender.send(m));
    assert.deepEqual(writing.message(text), m, text);
  }
  assert.deepEqual(writing.message('"\\ud83d\\ude00"'), new TextEncoder().encode("😀"));
  for (const it of ['"\\ud800"', '"a', '"a" 1', "0", "0g"]) assert.throws(() => writing.message(it), Wrong);
  const table = new Table({ version: 1, types: [{ name: "T", line: 1, node: 0 }], nodes: [{ kind: "struct", fields: [{ name: "value", node: 1 }] }, { kind: "option", node: 0 }] });
  const typed = new Writing({ form: "value", table, type: "T" });
  assert.deepEqual(typed.message('{"value":null}'), Uint8Array.of(0));
  assert.throws(() => typed.message('{"value":{"value":null}}'), /what it holds is another value: send its digits as "bytes, plain"/);
}
function refusals() {
  // options that would be ignored: what to write is said
  for (const [call, said] of [
    [() => new frames.Receiver(8, 10), /write \{ sentinel: 10 \}/], [() => new frames.Receiver(8, true), /write \{ plain: true \}/],
    [() => new frames.Sender(10), /write \{ sentinel: 10 \}/], [() => new frames.Sender("\n"), /options are an object/], [() => new frames.Sender(null), /options are an object/],
    [() => new frames.Receiver(8, { delimiter: 10 }), /no option is called delimiter: write sentinel or plain/], [() => new frames.Receiver(8, [10]), /options are an object/],
    [() => new frames.Receiver(8, { plain: "no" }), /plain is true or false/], [() => frames.encode(Uint8Array.of(1), 10), /write \{ sentinel: 10 \}/],
    [() => frames.decode(Uint8Array.of(1), { plain: true }), /no option is called plain/], [() => frames.receiverStream(8, 10), /write \{ sentinel: 10 \}/],
    [() => frames.receiverStream(8, { signal: new AbortController().signal }), /no option is called signal/],
    [() => frames.encode(Uint8Array.of(1), new Map([["sentinel", 10]])), /options are an object: write \{ sentinel: \.\. \}/],
    [() => frames.encode(Uint8Array.of(1), Promise.resolve({ sentinel: 10 })), /options are an object/],
    [() => frames.encode(Uint8Array.of(1), JSON.parse('{"__proto__":{"sentinel":10}}')), /no option is called __proto__/],
  ]) assert.throws(call, (error) => error instanceof TypeError && said.test(error.message), `${call}`);
  // what others put into Object.prototype is no option of a call; what a caller's options inherit is
  Object.prototype.sentinel = 10;
  Object.prototype.more = 10;
  try {
    assert.deepEqual(frames.encode(Uint8Array.of(1), {}), Uint8Array.of(2, 1));
    assert.deepEqual(frames.encode(Uint8Array.of(1), { sentinel: 1 }), Uint8Array.of(3, 0));
    assert.deepEqual(new frames.Sender().send(Uint8Array.of()), new frames.Sender({ sentinel: 0 }).send(Uint8Array.of()));
  } finally {
    delete Object.prototype.sentinel;
    delete Object.prototype.more;
  }
  assert.deepEqual(frames.encode(Uint8Array.of(1), Object.create({ sentinel: 1 })), Uint8Array.of(3, 0));
  // bytes that were transferred are gone, and aren't none
  const gone = new Uint8Array(3), view = new DataView(gone.buffer);
  structuredClone(gone.buffer, { transfer: [gone.buffer] });
  for (const it of [gone, view, gone.buffer]) {
    assert.throws(() => new frames.Receiver(8).push(it), /bytes are gone/);
    assert.throws(() => new frames.Sender().send(it), /bytes are gone/);
    assert.throws(() => frames.seal(it), /bytes are gone/);
  }
  // nor are those for which a buffer has no room any more
  const shrunk = new ArrayBuffer(8, { maxByteLength: 8 }), outside = [new Uint8Array(shrunk, 4, 4), new Uint32Array(shrunk, 4, 1), new DataView(shrunk, 4, 4)], all = new Uint8Array(shrunk);
  if (shrunk.resizable) {
    shrunk.resize(2);
    for (const it of outside) assert.throws(() => new frames.Sender().send(it), TypeError);
    assert.deepEqual(frames.encode(all), Uint8Array.of(1, 1, 1));
  }
  // bytes of another realm are bytes, and what only says so isn't
  for (const it of ["new Uint8Array([9, 8])", "new Uint8Array([9, 8]).buffer"]) assert.deepEqual(frames.encode(runInNewContext(it)), Uint8Array.of(3, 9, 8));
  assert.throws(() => frames.encode({ [Symbol.toStringTag]: "ArrayBuffer", byteLength: 3, length: 3 }), /bytes are needed/);
  assert.throws(() => frames.encode(new SharedArrayBuffer(3)), /bytes are needed/);
  // a class of one's own over bytes changes nothing of them
  class Own extends Uint8Array { static get [Symbol.species]() { return Array; } subarray() { return new Own(0); } }
  assert.deepEqual(new frames.Receiver(8).push(Own.from(HI)).map((it) => it.kind), ["message"]);
  // a bundler for browsers resolves each name that it finds: there is none of Node's modules
  assert.doesNotMatch(readFileSync(new URL("../frames.mjs", import.meta.url), "utf8"), /(import|from)\W*["'`]node:|node:\w+\//);
  // what doesn't fit the module's memory, and a limit that no number is
  for (const limit of [8n, -0.5, Infinity, 2 ** 53, 2 ** 31]) assert.throws(() => new frames.Receiver(limit), RangeError);
  if (!process.env.FRAMES_WASM) assert.throws(() => new frames.Sender().send(new Uint8Array(2 ** 31)), /no memory for \d+ bytes/); // of 32 bits
  for (const limit of [-1, 1.5, NaN, "8", 2 ** 40, undefined]) assert.throws(() => new frames.Receiver(limit), RangeError);
  for (const s of [-1, 256, 1.5, "0"]) assert.throws(() => new frames.Sender({ sentinel: s }), RangeError);
  for (const it of [5, "text", [1, 2], null, undefined, {}]) {
    assert.throws(() => frames.encode(it), TypeError);
    assert.throws(() => new frames.Sender().send(it), TypeError);
    assert.throws(() => new frames.Receiver(8).push(it), TypeError);
    assert.throws(() => frames.crc32(it), TypeError);
  }
  for (const it of [[], [0], [5, 1], [0, 3, 104, 105], [3, 104, 105, 0, 0], [3, 104, 105, 0, 3, 104, 105]]) {
    assert.throws(() => frames.decode(Uint8Array.from(it)), RangeError);
  }
  assert.equal(frames.unseal(Uint8Array.of(1, 2, 3)), undefined);
  const sealed = Buffer.from(frames.seal(Uint8Array.of(1, 2))), unsealed = frames.unseal(sealed);
  sealed.fill(9);
  assert.deepEqual(unsealed, Uint8Array.of(1, 2)); // bytes of its own, as from each call
  assert.equal(frames.crc32(new TextEncoder().encode("123456789")), 0xcbf43926); // as published
  assert.deepEqual(frames.encode(new Uint16Array([0x0102]).buffer), Uint8Array.of(3, 2, 1));
  assert.deepEqual(frames.encode(new DataView(Uint8Array.of(9, 8, 7).buffer, 1)), Uint8Array.of(3, 8, 7));
}

refusals();
await frames.load(import.meta.resolve("../frames.wasm")); // a URL as a text
await assert.rejects(frames.load(Uint8Array.of(0, 97, 115, 109, 1, 0, 0, 0)), /isn't frames.wasm/); // another module
for (const it of [null, {}, 5]) await assert.rejects(frames.load(it), /load takes a URL/);
await assert.rejects(frames.load("bindings/js/frames.wasm"), /write pathToFileURL\(path\)/);
await frames.load(Promise.resolve(readFileSync(new URL("../frames.wasm", import.meta.url)))); // as of fetch
await frames.load(process.env.FRAMES_WASM ? readFileSync(process.env.FRAMES_WASM) : undefined);
await streams();
await ends();
many();
await large();
noMemory();
await noSpace();
await dropped();
await keeps();
lines();
let rounds = 0;
for (; isTimed ? Date.now() < until : rounds < Number(told); rounds++) { whole(); stream(); }
console.log(`${rounds} rounds beside the oracle, no difference`);
