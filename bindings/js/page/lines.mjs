// What a page shows of a stream: an entry for each message and each damage, with its place, its bytes and its text. No part of this touches
// the page, so that it is tested in Node too.
import { Receiver, Sender } from "../frames.mjs";
import { BOTH, parseJson, Unread, Wrong } from "../table.mjs";

export const LIMIT = 65536;
export const hexOf = (bytes, most = bytes.length) =>
  Array.from(bytes.subarray(0, most), (it) => it.toString(16).padStart(2, "0")).join(" ") + (bytes.length > most ? " .." : "");
const UTF8 = new TextDecoder("utf-8", { fatal: true, ignoreBOM: true });
/** Bytes as a text in quotes if they are one that can be printed, else as hexadecimal digits. */
function textOf(bytes) {
  try {
    const text = UTF8.decode(bytes);
    if (!/[\p{Cc}\p{Cf}\p{Co}\p{Cn}]/u.test(text)) return JSON.stringify(text);
  } catch {}
  return hexOf(bytes);
}
/** The place of a type in a table. Throws if none or several have the name. */
function placeIn(table, type) {
  const place = table.placeOf(type);
  if (place === undefined) throw new TypeError(`no type, or more than one, has the name ${type} in the table`);
  return place;
}
/** The name of a value's variant, if its type is an enum; else the type's name. */
function kindOf(table, type, place, text) {
  const { variants } = table.nodes[place];
  if (!variants) return type;
  return variants.find(({ name }) => text === JSON.stringify(name) || text.startsWith(`{${JSON.stringify(name)}:`))?.name ?? type;
}

/**
 * How messages are read: `form` is "value" (of a table's type), "counted" or "plain"; `hex` shows the bytes of a value as digits. If it begins
 * inside a frame, nothing is shown up to the next delimiter: the end of a frame may look like a message.
 */
export class Lines {
  #receiver; #at = 0; #recent = new Uint8Array(0); #isInside;
  constructor({ form, table, type, sentinel = 0, hex = false }, isInside = false) {
    Object.assign(this, { form, table, type, sentinel, hex });
    this.#isInside = isInside;
    this.place = form === "value" ? placeIn(table, type) : undefined;
    this.#receiver = new Receiver(LIMIT, { plain: form !== "counted", sentinel });
  }
  /** How many bytes have come. */
  get bytes() { return this.#at; }
  /** An entry for each message and each damage that these bytes end: `kind`, `from` and `to`, `text`, its `bytes`, whether it is `bad`. */
  push(chunk) {
    if (this.#isInside) {
      const end = chunk.indexOf(this.sentinel) + 1, passed = end || chunk.length;
      this.#isInside = end === 0;
      this.#at += passed;
      chunk = chunk.subarray(passed);
    }
    const entries = this.#receiver.push(chunk).map((event) => this.#entry(event, chunk));
    this.#at += chunk.length;
    // the bytes of what is begun, to be shown if it is damaged
    const begun = Math.min(this.#receiver.begun, LIMIT), whole = new Uint8Array(this.#recent.length + chunk.length);
    whole.set(this.#recent);
    whole.set(chunk, this.#recent.length);
    this.#recent = begun ? whole.slice(-begun) : new Uint8Array(0);
    return entries;
  }
  /** Ends the stream: an entry for a partial frame at its end, if there is one. */
  finish() {
    const cut = this.#receiver.finish();
    return cut ? [{ kind: "cut", bad: true, from: this.#at - cut.length, to: this.#at, text: "", bytes: this.#recent.slice() }] : [];
  }
  #entry(event, chunk) {
    const to = this.#at + event.end, from = to - event.length, begin = from - this.#at;
    const bytes = new Uint8Array(event.length), old = Math.max(0, -begin);
    bytes.set(this.#recent.subarray(Math.max(0, this.#recent.length - old), this.#recent.length));
    bytes.set(chunk.subarray(Math.max(0, begin), event.end), Math.min(old, event.length));
    const bad = (kind) => ({ kind, bad: true, from, to, text: "", bytes });
    if (event.kind !== "message") return bad(event.kind === "tooLong" ? "too long" : event.kind);
    if (this.form !== "value") return { kind: "message", bad: false, from, to, text: textOf(event.bytes), bytes };
    try {
      const text = this.table.read(this.place, event.bytes, { hex: this.hex });
      return { kind: kindOf(this.table, this.type, this.place, text), bad: false, from, to, text, value: true, bytes };
    } catch (error) {
      if (!(error instanceof Unread)) throw error;
      return bad(error.kind.replace("_", " "));
    }
  }
}

const BLOCK = 65536;
/** The last bytes of a line, so many or up to a block more; in blocks, since a chunk of few bytes takes far more memory than they do. */
export class Kept {
  #most; #blocks = []; #space = 0; // the space that the last block has
  constructor(most) { this.#most = most; }
  push(bytes) {
    for (let at = 0; at < bytes.length; ) {
      if (this.#space === 0) {
        this.#blocks.push(new Uint8Array(this.#space = BLOCK));
        if (this.#blocks.length > this.#most / BLOCK + 1) this.#blocks.shift();
      }
      const part = bytes.subarray(at, at + this.#space);
      this.#blocks.at(-1).set(part, BLOCK - this.#space);
      at += part.length;
      this.#space -= part.length;
    }
  }
  /** All of them, as the parts of a Blob. */
  get parts() { return this.#blocks.map((it, i) => (i === this.#blocks.length - 1 ? it.subarray(0, BLOCK - this.#space) : it)); }
}

/**
 * Files one after another, whenever they are dropped, tables before captures: a file is a table by its name, `*.json`, or if all of them are.
 * Of its owner it calls `table(text)`; `begin(isFirst)`, which returns the Lines of a capture, or nothing; `note(entries, bytes)`; and
 * `report(line)`, once for each capture, or `fail(line)`.
 */
export class Files {
  #waiting = []; #owner;
  isReading = false;
  constructor(owner) { this.#owner = owner; }
  async take(files, areTables = false) {
    this.#waiting.push(...Array.from(files, (file) => ({ file, isTable: areTables || file.name.endsWith(".json") })).sort((a, b) => b.isTable - a.isTable));
    if (this.isReading) return;
    this.isReading = true;
    let isFirst = true;
    while (this.#waiting.length) {
      const { file, isTable } = this.#waiting.shift();
      try {
        if (isTable) this.#owner.table(await file.text());
        else isFirst = !(await this.#read(file, isFirst)) && isFirst;
      } catch (error) { this.#owner.fail(`${file.name}: ${error.message}`); }
    }
    this.isReading = false;
  }
  async #read(file, isFirst) {
    const lines = this.#owner.begin(isFirst), reader = lines && file.stream().getReader();
    let messages = 0, damaged = 0;
    const note = (entries, bytes) => {
      for (const entry of entries) {
        entry.file = file.name;
        if (entry.bad) damaged++; else messages++;
      }
      this.#owner.note(entries, bytes);
    };
    if (!lines) return false;
    for (let chunk; !(chunk = await reader.read()).done; ) note(lines.push(chunk.value), chunk.value);
    note(lines.finish(), new Uint8Array(0));
    this.#owner.report(`${file.name}: ${lines.bytes} bytes, messages ${messages}, damaged ${damaged}`);
    return true;
  }
}

/** Makes frames of what is typed: JSON of a value, or, of bytes, hexadecimal digits or a text in quotes. */
export class Writing {
  #sender;
  constructor({ form, table, type, sentinel = 0 }) {
    Object.assign(this, { form, table, type });
    this.place = form === "value" ? placeIn(table, type) : undefined;
    this.#sender = new Sender({ plain: form !== "counted", sentinel });
  }
  /** The message. Throws Wrong, with the way to what is wrong. */
  message(text) {
    if (this.form === "value") return this.#value(text);
    if (text.trim().startsWith('"')) {
      try { return new TextEncoder().encode(parseJson(text).text); } catch { throw new Wrong("the text in quotes is no JSON"); }
    }
    const digits = text.replace(/\s/g, "");
    if (digits.length % 2 || !/^[0-9a-fA-F]*$/.test(digits)) throw new Wrong("hexadecimal digits or a text in quotes are wanted");
    return Uint8Array.from(digits.match(/../g) ?? [], (it) => parseInt(it, 16));
  }
  #value(text) {
    try { return this.table.write(this.place, text); } catch (error) {
      throw error.why === BOTH ? new Wrong('{"value": ..} is of the type, and what it holds is another value: send its digits as "bytes, plain"') : error;
    }
  }
  /** Writes the frame of what is typed, and returns the message's bytes. If that fails, the next frame begins with a delimiter. */
  async write(writer, text) {
    const message = this.message(text);
    await this.#sender.write(writer, message);
    return message;
  }
}

/** An entry as a line of a log: as `wire read` says it, with the time in seconds, and its file's name if it is of one. */
export function logLine({ seconds, file, kind, bad, from, to, text, value, bytes }) {
  const head = `{"seconds":${seconds.toFixed(3)},${file === undefined ? "" : `"file":${JSON.stringify(file)},`}`;
  if (bad) return `${head}"${kind.replace(" ", "_")}":{"from":${from},"to":${to}},"hex":"${hexOf(bytes).replaceAll(" ", "")}"}`;
  return `${head}"from":${from},"to":${to},"value":${value ? text : JSON.stringify(text)}}`;
}
