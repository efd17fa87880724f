// Messages as frames over a line that may break, by a WebAssembly module whose code is proved (crates/frames_c). This file is tested, not
// proved. It is for Node 20, Deno and browsers, and needs no other package. What a receiver or a sender keeps is bytes here, which are put into
// one of two instances of the module for a call: there may be any number of them, and nothing has to be freed.
//
// Messages are counted unless `plain` is said: no part of an interrupted one is received as a message. README.md says what that means.

let compiled;
const byteLength = Object.getOwnPropertyDescriptor(ArrayBuffer.prototype, "byteLength").get;
/** Whether it is an ArrayBuffer, also one of another realm, such as a frame of a page or a test's sandbox. */
function isBuffer(it) {
  try { return byteLength.call(it) >= 0; } catch { return false; }
}

/** Compiles the module: a URL, a Response, its bytes or a WebAssembly.Module; `frames.wasm` beside this file if none is given. */
export async function load(source = new URL("frames.wasm", import.meta.url)) {
  if (typeof source === "string" && source.startsWith("file:")) source = new URL(source); // as import.meta.resolve returns it in Node
  source = await source; // as `load(fetch(url))` says it
  const module = source instanceof WebAssembly.Module ? source : await WebAssembly.compile(await wasmOf(source));
  if (!WebAssembly.Module.exports(module).some(({ name }) => name === "frames_c_push")) throw new TypeError("frames: this module isn't frames.wasm");
  compiled = module;
}
async function wasmOf(source) {
  if (ArrayBuffer.isView(source) || isBuffer(source)) return source;
  if (source instanceof URL && source.protocol === "file:") {
    // by a name that is put together: a bundler for browsers would look for the module, and end if it finds none
    const { readFile } = await import(/* webpackIgnore: true */ /* @vite-ignore */ ["node:fs", "promises"].join("/"));
    return readFile(source);
  }
  if (typeof source !== "string" && !(source instanceof URL) && !(source instanceof Response)) {
    throw new TypeError("frames: load takes a URL, a Response, bytes or a WebAssembly.Module");
  }
  const isPath = typeof source === "string" && !globalThis.location && !/^[a-z][-+.a-z0-9]*:/i.test(source);
  if (isPath) throw new TypeError("frames: load takes no path: write pathToFileURL(path), of node:url");
  const response = await (source instanceof Response ? source : fetch(source));
  if (!response.ok) throw new Error(`frames: ${response.url}: ${response.status}`);
  return response.arrayBuffer(); // also where a server doesn't say that it is WebAssembly
}

const CHUNK = 65536;
const [MESSAGE, DAMAGED, TOO_LONG] = [1, 2, 3];
const REFUSED = ["", "no space", "no frame"];
const U64 = BigInt;

// An instance of the module. What a call needs is put behind the module's own memory, at offsets that the caller chooses.
class Instance {
  constructor() {
    if (!compiled) throw new Error("frames: await load() first");
    this.calls = new WebAssembly.Instance(compiled).exports;
    const base = this.calls.__heap_base.value;
    this.is64 = typeof base === "bigint";
    this.base = (Number(base) + 15) & ~15;
  }
  // a pointer, as the module takes it
  at(offset) { return this.is64 ? U64(this.base + offset) : this.base + offset; }
  // sees to it that there are so many bytes
  reserve(bytes) {
    const more = this.base + bytes - this.calls.memory.buffer.byteLength;
    if (more <= 0) return;
    const pages = Math.ceil(more / 65536), grow = (n) => this.calls.memory.grow(n);
    try {
      try { grow(this.is64 ? U64(pages) : pages); } catch (error) {
        if (!this.is64 || !(error instanceof TypeError)) throw error;
        grow(pages); // engines before the final form of memory64
      }
    } catch (cause) { throw new RangeError(`frames: the module has no memory for ${bytes} bytes`, { cause }); }
  }
  // the memory, of which growing makes another buffer
  get view() {
    const { buffer } = this.calls.memory;
    return this.seen?.buffer === buffer ? this.seen : (this.seen = new DataView(buffer));
  }
  get bytes() {
    const { buffer } = this.calls.memory;
    return this.all?.buffer === buffer ? this.all : (this.all = new Uint8Array(buffer));
  }
  put(offset, bytes) { this.bytes.set(bytes, this.base + offset); }
  get(offset, length) { return this.bytes.slice(this.base + offset, this.base + offset + length); }
  number(offset) { return Number(this.view.getBigUint64(this.base + offset, true)); }
  byte(offset) { return this.bytes[this.base + offset]; }
}

// what calls share that take and return bytes; and what receivers share, `held` of which is the one whose state is in it
let shared, receiving, held;
// The memory of a module doesn't shrink: where it was once large, another instance takes its place.
const LARGE = 1 << 26;
const notLarge = (it) => (it && it.bytes.length <= LARGE ? it : new Instance());
const instance = () => (shared = notLarge(shared));

const { keys } = Uint8Array.prototype, { get: arrayName } = Object.getOwnPropertyDescriptor(Object.getPrototypeOf(Uint8Array.prototype), Symbol.toStringTag);
/** A plain view of bytes. Those of a buffer that was transferred, or has shrunk, are gone: a TypeError then. */
function bytesOf(it) {
  const isView = ArrayBuffer.isView(it);
  if (!isView && !isBuffer(it)) throw new TypeError("frames: bytes are needed: a Uint8Array, another view or an ArrayBuffer");
  try {
    if (isView && arrayName.call(it)) keys.call(it); // throws for one that its buffer has no room for any more, whose length is 0
    return isView ? new Uint8Array(it.buffer, it.byteOffset, it.byteLength) : new Uint8Array(it);
  } catch (cause) { throw new TypeError("frames: these bytes are gone: their buffer was transferred, or has shrunk", { cause }); }
}
/** What the options of a call say. What would be ignored is refused: `new Receiver(8, 10)`, `{ delimiter: 10 }`. */
function optionsOf(options, ...names) {
  if (typeof options !== "object" || options === null) {
    const meant = typeof options === "boolean" ? `{ plain: ${options} }` : `{ sentinel: ${Number.isInteger(options) ? options : 10} }`;
    throw new TypeError(`frames: options are an object: write ${meant}`);
  }
  // a Map or a Promise has none of its own, and what others put into Object.prototype isn't the caller's
  if (Symbol.iterator in options || typeof options.then === "function") throw new TypeError(`frames: options are an object: write { ${names[0]}: .. }`);
  const isForeign = (name) => Object.hasOwn(Object.prototype, name) && !Object.hasOwn(options, name);
  for (const name in options) {
    if (!names.includes(name) && !isForeign(name)) throw new TypeError(`frames: no option is called ${name}: write ${names.join(" or ")}`);
  }
  const given = names.filter((name) => name in options && !isForeign(name));
  const { sentinel = 0, plain = false, signal } = Object.assign(Object.create(null), Object.fromEntries(given.map((name) => [name, options[name]])));
  if (!Number.isInteger(sentinel) || sentinel < 0 || sentinel > 255) throw new RangeError("frames: a sentinel is a number from 0 to 255");
  if (typeof plain !== "boolean") throw new TypeError("frames: plain is true or false");
  if (signal !== undefined && typeof signal?.throwIfAborted !== "function") throw new TypeError("frames: signal is an AbortSignal: write { signal: controller.signal }");
  return { sentinel, plain, signal, given };
}

// the places of a receiver's state, of an event, of a chunk, and of the buffer, which grows with what is begun
const [EVENT, CHUNK_AT, BUFFER] = [16, 64, 64 + CHUNK];
/** Receives the messages of a stream that comes in chunks, with at most `limit` bytes between two delimiters. */
export class Receiver {
  #state = new Uint8Array(16); #begun = new Uint8Array(0); #limit; #push;
  constructor(limit, options = {}) {
    if (!Number.isSafeInteger(limit) || limit < 0 || limit > 0x40000000) throw new RangeError("frames: a limit is a number of bytes, up to 2 ** 30");
    const { sentinel, plain } = optionsOf(options, "sentinel", "plain");
    receiving ??= new Instance();
    this.#limit = limit;
    this.#push = plain ? "frames_c_push_plain" : "frames_c_push";
    this.#state[9] = sentinel; // as a new receiver
  }
  /** The instance, with this receiver's state in it; that of another one is put aside. */
  #held() {
    if (held === this) return receiving;
    held?.#putAside();
    held = undefined;
    const it = (receiving = notLarge(receiving));
    it.reserve(BUFFER + this.#begun.length);
    it.put(0, this.#state);
    it.put(BUFFER, this.#begun);
    this.#begun = new Uint8Array(0);
    held = this;
    return it;
  }
  #putAside() {
    this.#begun = receiving.get(BUFFER, receiving.number(0));
    this.#state = receiving.get(0, 16);
  }
  /** The instance with space for so many bytes more, and that space. If there is none, they are lost, and so is the frame that they end. */
  #spaceFor(more) {
    try {
      const it = this.#held(), room = Math.min(this.#limit, it.number(0) + more); // no more comes between two delimiters in this call
      it.reserve(BUFFER + room);
      return [it, room];
    } catch (error) {
      if (held === this) held = undefined;
      this.#begun = new Uint8Array(0);
      this.#state.fill(0, 0, 8);
      this.#state[8] = 1; // as past the limit
      throw error;
    }
  }
  /** What these bytes bring about, in order. If it throws because memory ran out, they were taken, and a frame that has begun may be lost. */
  push(bytes) {
    const all = bytesOf(bytes), events = [], [it, room] = this.#spaceFor(all.length);
    let failure;
    for (let from = 0; from < all.length; from += CHUNK) {
      const chunk = all.subarray(from, from + CHUNK);
      it.put(CHUNK_AT, chunk);
      for (let at = 0; ; ) {
        it.calls[this.#push](it.at(EVENT), it.at(0), it.at(BUFFER), U64(room), it.at(CHUNK_AT + at), U64(chunk.length - at));
        at += it.number(EVENT);
        const kind = it.byte(EVENT + 32), place = { end: from + at - 1, length: it.number(EVENT + 8) };
        if (kind !== MESSAGE && kind !== DAMAGED && kind !== TOO_LONG) break;
        try {
          if (kind === MESSAGE) events.push({ kind: "message", bytes: it.get(BUFFER + it.number(EVENT + 16), it.number(EVENT + 24)), ...place });
          else events.push({ kind: kind === DAMAGED ? "damaged" : "tooLong", ...place });
        } catch (error) { failure ??= error; } // the rest is taken too, or the next push would begin inside a frame
      }
    }
    if (failure) throw failure;
    return events;
  }
  /** How many bytes have come since the last delimiter; 0 after `tooLong`. */
  get begun() {
    const it = this.#held();
    return Number(it.calls.frames_c_begun(it.at(0)));
  }
  /** Ends the stream, and begins a new one. Returns the partial frame at its end, if there is one. */
  finish() {
    const length = this.begun, it = this.#held();
    return it.calls.frames_c_finish(it.at(0)) ? { kind: "cut", length } : undefined;
  }
}

/** Makes the bytes of each message, for a line that may break. */
export class Sender {
  #state; #send; #sends = 0;
  constructor(options = {}) {
    const { sentinel, plain } = optionsOf(options, "sentinel", "plain");
    instance();
    this.#send = plain ? "frames_c_send_plain" : "frames_c_send";
    this.#state = Uint8Array.of(0, sentinel); // as a new sender
  }
  /** The bytes to write. Call `sent` once all of them went out; if they didn't, call nothing. */
  send(message) {
    const [it, bytes] = [instance(), bytesOf(message)];
    const space = bytes.length + Math.floor(bytes.length / 254) + 16;
    it.reserve(32 + bytes.length + space);
    it.put(0, this.#state);
    it.put(32, bytes);
    it.calls[this.#send](it.at(16), it.at(0), it.at(32), U64(bytes.length), it.at(32 + bytes.length), U64(space));
    if (it.byte(24)) throw new Error("frames: a send has no space"); // the space is that of the longest frame
    const out = it.get(32 + bytes.length, it.number(16));
    this.#state = it.get(0, 2);
    this.#sends++;
    return out;
  }
  /** Says that all bytes of the last send went out. */
  sent() {
    const it = instance();
    it.put(0, this.#state);
    it.calls.frames_c_sent(it.at(0));
    this.#state = it.get(0, 2);
  }
  /** Writes a message to a WritableStream's writer, as that of a serial port. If that fails, the next send begins with a delimiter. */
  async write(writer, message) {
    if (typeof writer?.write !== "function") throw new TypeError("frames: a writer is needed: stream.getWriter()");
    const bytes = this.send(message), sends = this.#sends, wrote = writer.write(bytes);
    if (typeof wrote?.then !== "function") { // so nothing says whether the bytes went out
      throw new TypeError("frames: this write returns no promise: of a Node stream take Writable.toWeb(stream).getWriter()");
    }
    await wrote;
    if (sends === this.#sends) this.sent(); // else a later send has begun, which may still fail
  }
}

// a call of a whole source, and what it wrote
function whole(source, space, name, ...more) {
  const it = instance();
  it.reserve(32 + source.length + space);
  it.put(32, source);
  it.calls[name](it.at(0), it.at(32), U64(source.length), it.at(32 + source.length), U64(space), ...more);
  const [length, status] = [it.number(0), it.byte(8)];
  if (status) throw new RangeError(`frames: ${REFUSED[status]}`);
  return it.get(32 + source.length, length);
}
/** The shortest frame of a message's bytes, without a delimiter; each byte XORed with the sentinel. */
export function encode(message, options = {}) {
  const bytes = bytesOf(message), { sentinel } = optionsOf(options, "sentinel");
  return whole(bytes, bytes.length + Math.floor(bytes.length / 254) + 2, "frames_c_encode_with_sentinel", sentinel);
}
/** The message of one frame, with or without the delimiter that ends it. Throws a RangeError for all other bytes. */
export function decode(frame, options = {}) {
  const bytes = bytesOf(frame), { sentinel } = optionsOf(options, "sentinel"), end = bytes.indexOf(sentinel);
  if (bytes.length === 0) throw new RangeError("frames: no frame: there are no bytes");
  if (end === 0) throw new RangeError("frames: no frame: a delimiter is in front");
  if (end > 0 && end < bytes.length - 1) throw new RangeError("frames: bytes are after the delimiter that ends the frame");
  return whole(bytes, bytes.length, "frames_c_decode_with_sentinel", sentinel);
}
/** The CRC-32 of bytes, as Ethernet, gzip and PNG have it. */
export function crc32(bytes) {
  const [it, source] = [instance(), bytesOf(bytes)];
  it.reserve(32 + source.length);
  it.put(32, source);
  return it.calls.frames_c_crc32(it.at(32), U64(source.length)) >>> 0;
}
/** A message with its CRC-32 appended, to be sent: `unseal` notices bytes that changed on the line. */
export function seal(message) {
  const [it, source] = [instance(), bytesOf(message)];
  it.reserve(32 + source.length + 4);
  it.put(32, source);
  it.calls.frames_c_seal(it.at(0), it.at(32), U64(source.length + 4), U64(source.length));
  return it.get(32, it.number(0));
}
/** What was sealed; undefined if the last four bytes aren't the CRC-32 of those before them. */
export function unseal(message) {
  const [it, source] = [instance(), bytesOf(message)];
  it.reserve(32 + source.length);
  it.put(32, source);
  it.calls.frames_c_unseal(it.at(0), it.at(32), U64(source.length));
  return it.byte(8) ? undefined : it.get(32, it.number(0)); // a copy: a Buffer's own slice would be a view
}

// a receiver of the chunks of one stream, which counts places from its first byte
function receiverOf(limit, options, ...more) {
  const { sentinel, plain, signal, given } = optionsOf(options, "sentinel", "plain", ...more), isHeld = limit instanceof Receiver;
  if (isHeld && given.some((name) => name !== "signal")) throw new TypeError("frames: a receiver has its own sentinel and form: give no options with it");
  const receiver = isHeld ? limit : new Receiver(limit, { sentinel, plain });
  let before = 0;
  return {
    signal,
    push(chunk) {
      const { length } = bytesOf(chunk), events = receiver.push(chunk);
      for (const event of events) event.end += before;
      before += length;
      return events;
    },
    finish: () => receiver.finish(),
  };
}
// the chunks of a source, which `end` gives back, also while a read waits. If that was one of an iterable, what it brings later goes to `late`.
function chunksOf(source, late) {
  if (ArrayBuffer.isView(source) || isBuffer(source)) throw new TypeError("frames: a source gives bytes one after another: write [bytes]");
  const isSource = ["getReader", Symbol.asyncIterator, Symbol.iterator].some((name) => typeof source?.[name] === "function");
  if (!isSource) throw new TypeError("frames: a source is needed: a ReadableStream, as port.readable, a Node stream, or what gives bytes one after another");
  const reader = typeof source.getReader === "function" ? source.getReader() : undefined;
  const chunks = reader ? undefined : (async function* () { yield* source; })();
  const over = { done: true };
  let wake, ended;
  return {
    read: () => ended ? over : new Promise((go, no) => {
      wake = () => go(over);
      (reader ?? { read: () => chunks.next() }).read().then((it) => {
        wake = undefined;
        if (ended && chunks && !it.done) late(it.value); else go(it);
      }, (error) => {
        wake = undefined;
        if (ended) go(over); else no(error);
      }).catch(() => {}); // of what is late: nobody asks for it any more
    }),
    end() {
      if (ended) return ended;
      if (!chunks) {
        // refuses the read that waits, unless its bytes have come: those that come later stay in the stream
        try { reader.releaseLock(); } catch { reader.cancel().then(() => reader.releaseLock()).catch(() => {}); } // engines before 2022
        return (ended = Promise.resolve());
      }
      if (wake) source.destroy?.(); // a stream of Node, as `for await` leaves it
      ended = chunks.return();
      ended.catch(() => {}); // said by who awaits it
      if (!wake) return ended;
      wake();
      return (ended = Promise.resolve()); // a generator ends once what it waits for has come
    },
    get isEnded() { return ended !== undefined; },
  };
}
/**
 * What is received of a stream, as it comes: Web Serial's `port.readable`, a Node stream, or whatever gives bytes one after another. `return()`,
 * as `break` calls it, ends it and gives the stream back, also while it waits; so does `signal`, by which it throws. A Receiver in place of the
 * limit keeps the frame that has begun, for the next call.
 */
export function receive(source, limit, options = {}) {
  let chunks;
  const events = (async function* () {
    const receiver = receiverOf(limit, options, "signal"), { signal } = receiver;
    signal?.throwIfAborted();
    chunks = chunksOf(source, receiver.push);
    signal?.addEventListener("abort", chunks.end);
    try {
      for (let chunk; !(chunk = await chunks.read()).done; ) {
        for (const event of receiver.push(chunk.value)) {
          yield event;
          signal?.throwIfAborted();
        }
      }
      signal?.throwIfAborted();
      const cut = chunks.isEnded ? undefined : receiver.finish();
      if (cut) yield cut;
    } finally {
      signal?.removeEventListener("abort", chunks.end);
      await chunks.end();
    }
  })();
  for (const name of ["return", "throw"]) {
    const call = events[name];
    events[name] = (it) => { chunks?.end(); return call.call(events, it); };
  }
  return events;
}
/** The same as a stage of a pipe: `port.readable.pipeThrough(receiverStream(1024))`. */
export function receiverStream(limit, options = {}) {
  const receiver = receiverOf(limit, options);
  return new TransformStream({
    transform(chunk, to) { for (const event of receiver.push(chunk)) to.enqueue(event); },
    flush(to) { const cut = receiver.finish(); if (cut) to.enqueue(cut); },
  });
}
