// Values of message types by the table that `wire check FILES json` prints: bytes of postcard as JSON, and JSON as bytes. What it prints and
// refuses is what the program `wire` does; but a line that is two values, it refuses, and a value with more than 2^22 parts in a row that
// take no byte, since a table can have those without end. It is tested against the vectors of `wire` and not proved; see README.md.

const TOO_DEEP = "the value is nested too deeply: `depth=` sets the limit";
/** Of a line that is two values. */
export const BOTH = '{"value": ..} is of the type, and what it holds is another value: `wrapped` says which is meant';

/** Why a line of JSON isn't a value of the type: `why`, and the way to it, as `history[3].light.Lit`; none if the whole is wrong. */
export class Wrong extends Error {
  constructor(why, path) {
    super(path === undefined ? why : `${path}: ${why}`);
    this.why = why;
    this.path = path;
  }
}
/** Why bytes don't begin with a value of the type: `kind` is "damaged" or "too_deep". */
export class Unread extends Error {
  constructor(kind) {
    super(kind);
    this.kind = kind;
  }
}

const GREATEST_DEPTH = 1000, MOST_WITHOUT_BYTES = 2 ** 22;
const INTEGER = /^([ui])(8|16|32|64|128)$/;
const PARTS = new Map([["option", "node"], ["list", "node"], ["map", "node"], ["array", "node"], ["newtype", "node"], ["struct", "fields"], ["enum", "variants"], ["tuple", "nodes"]]);
const NO_PARTS = new Set(["bool", "char", "bytes", "text", "f32", "f64", "unit", "empty", "fixed"]);
const UTF8 = new TextDecoder("utf-8", { fatal: true, ignoreBOM: true });
const TEXT = new TextEncoder();
const quoted = (text) => JSON.stringify(text);
const isObject = (it) => typeof it === "object" && it !== null;
const isInteger = (kind) => typeof kind === "string" && INTEGER.test(kind);
/** The integer that a node is of, by its digits or of fixed width. */
const integerIn = (node) => (node.kind === "fixed" ? node.integer : node.kind);
/** A name in a message: what controls a terminal is escaped as in JSON. */
const shown = (name) => name.replace(/[\0-\x1f\x7f-\x9f]/g, (it) => ({ "\n": "\\n", "\r": "\\r", "\t": "\\t" })[it] ?? `\\u${it.charCodeAt().toString(16).padStart(4, "0")}`);

// ---- bytes

class Source {
  constructor(bytes) {
    const isBytes = ArrayBuffer.isView(bytes) && Object.prototype.toString.call(bytes) === "[object Uint8Array]"; // of any realm
    if (!isBytes) throw new TypeError("bytes are needed: a Uint8Array");
    try { Uint8Array.prototype.keys.call(bytes); } catch (cause) { // else a view that its buffer has no room for would be of no bytes
      throw new TypeError("the bytes are gone: their buffer was transferred, or has shrunk", { cause });
    }
    this.bytes = new Uint8Array(bytes.buffer, bytes.byteOffset, bytes.byteLength);
    this.at = 0;
  }
  byte() {
    if (this.at === this.bytes.length) throw new Unread("damaged");
    return this.bytes[this.at++];
  }
  take(n) {
    if (n > this.bytes.length - this.at) throw new Unread("damaged");
    this.at += n;
    return this.bytes.subarray(this.at - n, this.at);
  }
  /** A number in groups of seven bits; no more groups than its width has, and no bit past it. */
  varint(bits) {
    const most = Math.ceil(bits / 7), last = 2 ** (bits - 7 * (most - 1)) - 1;
    let n = 0n;
    for (let i = 0; ; i++) {
      const byte = this.byte();
      if (i === most - 1 && byte > last) throw new Unread("damaged");
      n |= BigInt(byte & 127) << BigInt(7 * i);
      if (byte < 128) return n;
    }
  }
  count() { return this.varint(64); }
}
const unzigzag = (n) => (n & 1n ? -((n + 1n) >> 1n) : n >> 1n);
const zigzag = (n) => (n >= 0n ? 2n * n : -2n * n - 1n);
function putVarint(out, n) {
  for (; n > 127n; n >>= 7n) out.push(Number(n & 127n) | 128);
  out.push(Number(n));
}
const ordered = (bytes, order) => (order === "big" ? bytes : [...bytes].reverse());
function fixedOf(bytes, integer, order) {
  let n = 0n;
  for (const byte of ordered(bytes, order)) n = (n << 8n) | BigInt(byte);
  return integer[0] === "i" ? BigInt.asIntN(8 * bytes.length, n) : n;
}
function bytesOfFixed(n, bits, order) {
  const bytes = [];
  for (let i = 0, rest = BigInt.asUintN(bits, n); i < bits / 8; i++, rest >>= 8n) bytes.push(Number(rest & 255n));
  return order === "big" ? bytes.reverse() : bytes;
}

// ---- floats

const view = new DataView(new ArrayBuffer(8));
const WIDTHS = {
  f32: { bytes: 4, none: 0x7f800000n, usual: 0x7fc00000n, sign: 1n << 31n, digits: 8 },
  f64: { bytes: 8, none: 0x7ff0000000000000n, usual: 0x7ff8000000000000n, sign: 1n << 63n, digits: 16 },
};
function floatOf(kind, bits) {
  if (kind === "f32") { view.setUint32(0, Number(bits)); return view.getFloat32(0); }
  view.setBigUint64(0, bits);
  return view.getFloat64(0);
}
function bitsOf(kind, x) {
  if (kind === "f32") { view.setFloat32(0, x); return BigInt(view.getUint32(0)); }
  view.setFloat64(0, x);
  return view.getBigUint64(0);
}
/** A number's digits and where its point is, as `[negative, "12345", 3]` of 123.45. */
function decimalOf(text) {
  const [, sign, whole, , part = "", exponent = "0"] = /^(-?)(\d+)(\.(\d+))?(?:[eE]([-+]?\d+))?$/.exec(text);
  return [sign === "-", whole + part, whole.length + Number(exponent)];
}
/** Which is greater, a positive decimal or a positive finite double: below 0, 0, or above 0. */
function compared(digits, point, double) {
  const bits = bitsOf("f64", double), exponent = Number(bits >> 52n);
  let [left, right] = [BigInt(digits), (bits & 0xfffffffffffffn) | (exponent ? 1n << 52n : 0n)];
  const tens = point - digits.length, twos = Math.max(exponent, 1) - 1075;
  if (tens >= 0) left *= 10n ** BigInt(tens); else right *= 10n ** BigInt(-tens);
  if (twos >= 0) right <<= BigInt(twos); else left <<= BigInt(-twos);
  return left < right ? -1 : left > right ? 1 : 0;
}
/** The float of 32 bits that is nearest to a decimal. Rounding a double again is wrong exactly if the double lies between two floats. */
function singleOf(text) {
  const double = Number(text), single = Math.fround(double);
  if (single === double || !Number.isFinite(double)) return single;
  const [, digits, point] = decimalOf(text), size = Math.abs(double), low = Math.abs(single);
  const bits = bitsOf("f32", low), other = floatOf("f32", low > size ? bits - 1n : bits + 1n);
  const far = Number.isFinite(other) ? other : 2 ** 128, near = Number.isFinite(low) ? low : 2 ** 128;
  if (near + far !== 2 * size) return single;
  const side = compared(digits, point, size);
  if (side === 0) return single;
  return Math.sign(double) * (side > 0 ? Math.max(low, other) : Math.min(low, other));
}
/** The digits of the shortest decimal that reads back as a positive float, and where its point is. */
function shortest(kind, x) {
  if (kind === "f64") {
    const [, digits, point] = decimalOf(x.toExponential());
    return [digits, point];
  }
  for (let n = 1; ; n++) {
    const [, digits, point] = decimalOf(x.toExponential(n - 1)), half = String(10n * BigInt(digits) - 5n);
    const isTie = compared(half, point + half.length - digits.length - 1, x) === 0; // where toExponential takes the greater one, and ryu the even one
    // beside a power of two the nearest decimal may lie outside
    for (const step of isTie && BigInt(digits) % 2n ? [-1n, 0n] : [0n, 1n, -1n]) {
      const near = String(BigInt(digits) + step), at = point + near.length - digits.length;
      if (singleOf(`${near}e${at - near.length}`) === x) return [near.replace(/0+$/, "") || "0", at];
    }
  }
}
/** A float as JSON, as Rust's ryu writes it; what is no number as a text. */
function printFloat(kind, bits) {
  const width = WIDTHS[kind];
  if (bits % width.sign >= width.none) {
    if (bits % width.sign === width.none) return bits < width.sign ? '"Infinity"' : '"-Infinity"';
    return bits === width.usual ? '"NaN"' : `"NaN:${bits.toString(16).padStart(width.digits, "0")}"`;
  }
  const x = floatOf(kind, bits), sign = bits < width.sign ? "" : "-";
  if (x === 0) return `${sign}0.0`;
  const [digits, point] = shortest(kind, Math.abs(x)), n = digits.length, [low, high] = kind === "f32" ? [-6, 13] : [-5, 16];
  if (n <= point && point <= high) return `${sign}${digits}${"0".repeat(point - n)}.0`;
  if (0 < point && point <= high) return `${sign}${digits.slice(0, point)}.${digits.slice(point)}`;
  if (low < point && point <= 0) return `${sign}0.${"0".repeat(-point)}${digits}`;
  return `${sign}${digits[0]}${n > 1 ? `.${digits.slice(1)}` : ""}e${point - 1}`;
}
function parseFloatBits(kind, json) {
  const width = WIDTHS[kind];
  if (json.number !== undefined) {
    const x = kind === "f32" ? singleOf(json.number) : Number(json.number);
    if (Number.isFinite(x)) return bitsOf(kind, x);
  } else if (json.text !== undefined) {
    if (json.text === "Infinity") return width.none;
    if (json.text === "-Infinity") return width.none + width.sign;
    if (json.text === "NaN") return width.usual;
    const bits = json.text.startsWith("NaN:") && json.text.length === 4 + width.digits && /^[0-9a-fA-F]+$/.test(json.text.slice(4))
      ? BigInt(`0x${json.text.slice(4)}`) : 0n;
    if (bits % width.sign > width.none) return bits;
  } else throw new Wrong("expected a number");
  throw new Wrong("the float is out of range, or the string is none of `NaN`, `Infinity`, `-Infinity`");
}

// ---- JSON: numbers by their digits, members in their order and as often as they come

/** A text as a value: one of `null`, `truth`, `number` (its digits), `text`, `items`, `members` (pairs). */
export function parseJson(text, depth = 2 * GREATEST_DEPTH) {
  if (typeof text !== "string") throw new TypeError("a text is needed: a line of JSON");
  let at = 0;
  const fail = () => { throw new Wrong("the line isn't JSON", `column ${[...text.slice(0, at)].length + 1}`); };
  const blank = () => { while (at < text.length && " \t\n\r".includes(text[at])) at++; };
  const token = /-?(?:0|[1-9]\d*)(?:\.\d+)?(?:[eE][-+]?\d+)?|true|false|null/y;
  const word = /[^ \t\n\r,:[\]{}]*/y; // a number, true, false and null go up to one of these
  const sequence = (close, part) => {
    const parts = [];
    at++;
    blank();
    if (text[at] === close) { at++; return parts; }
    for (;;) {
      parts.push(part());
      blank();
      if (text[at] === close) { at++; return parts; }
      if (text[at] !== ",") fail();
      at++;
      blank();
    }
  };
  const string = () => {
    let end = at + 1, read;
    while (end < text.length && text[end] !== '"') end += text[end] === "\\" ? 2 : 1;
    try { read = text[at] === '"' && JSON.parse(text.slice(at, end + 1)); } catch {}
    if (typeof read !== "string" || /\p{Surrogate}/u.test(read)) fail();
    at = end + 1;
    return read;
  };
  const value = (left) => {
    if (left === 0) throw new Wrong(TOO_DEEP);
    blank();
    if (text[at] === "[") return { items: sequence("]", () => value(left - 1)) };
    if (text[at] === "{") {
      return { members: sequence("}", () => {
        const key = string();
        blank();
        if (text[at] !== ":") fail();
        at++;
        return [key, value(left - 1)];
      }) };
    }
    if (text[at] === '"') return { text: string() };
    token.lastIndex = word.lastIndex = at;
    const found = token.exec(text);
    if (!found || found[0] !== word.exec(text)[0]) fail();
    at += found[0].length;
    if (found[0] === "null") return { null: true };
    return found[0] === "true" || found[0] === "false" ? { truth: found[0] === "true" } : { number: found[0] };
  };
  const read = value(depth);
  blank();
  if (at !== text.length) fail();
  return read;
}

// ---- the table

/** What a number that isn't of the type is told. */
function rangeOf(integer) {
  const [, sign, width] = INTEGER.exec(integer), bits = Number(width), signed = sign === "i";
  if (bits <= 32) return `expected a number from ${signed ? -(2 ** (bits - 1)) : 0} to ${2 ** (bits - (signed ? 1 : 0)) - 1}`;
  return signed ? `expected a number from -2^${bits - 1} to 2^${bits - 1} - 1` : `expected a number from 0 to 2^${bits} - 1`;
}
function integerOf(integer, digits) {
  const [, sign, width] = INTEGER.exec(integer), bits = Number(width);
  if (!/^[-+]?\d+$/.test(digits) || (sign === "u" && digits[0] === "-")) return undefined;
  const n = BigInt(digits.replace("+", ""));
  return (sign === "u" ? BigInt.asUintN(bits, n) : BigInt.asIntN(bits, n)) === n ? n : undefined;
}
/** What the options of a read or a write say. What would be ignored is refused. */
function optionsOf(options) {
  if (!isObject(options) || Symbol.iterator in options) throw new TypeError("options are an object: write { depth: 60 }");
  const unknown = Object.keys(options).find((name) => !["depth", "empty", "hex", "wrapped"].includes(name));
  if (unknown !== undefined) throw new TypeError(`no option is called ${unknown}: write depth, empty, hex or wrapped`);
  const { depth = 60, empty = 65536, hex = false, wrapped } = Object.assign(Object.create(null), options);
  if (!Number.isInteger(depth) || depth < 1 || depth > GREATEST_DEPTH) throw new RangeError(`depth is a number from 1 to ${GREATEST_DEPTH}`);
  if (!Number.isSafeInteger(empty) || empty < 0) throw new RangeError("empty is a number of elements");
  if (typeof hex !== "boolean") throw new TypeError("hex is true or false");
  if (wrapped !== undefined && typeof wrapped !== "boolean") throw new TypeError("wrapped is true or false");
  return { depth, empty, hex, wrapped };
}
/** A copy of an object, which has its own members alone: the caller's may change, and others put members into Object.prototype. */
const own = (it) => (isObject(it) ? Object.assign(Object.create(null), it) : it);
/** The same of a node, with its parts. */
function ownNode(node) {
  const copy = own(node);
  for (const part of PARTS.values()) if (Array.isArray(copy?.[part])) copy[part] = Array.from(copy[part], own);
  return copy;
}
/** Runs a step that goes as deep as a value does: if the engine's stack ends before, that is too deep as well. */
function onStack(step, tooDeep) {
  try { return step(); } catch (error) {
    throw /call stack|recursion/.test(error.message) ? tooDeep : error;
  }
}
/** Runs a step inside a part of a value, so that what is wrong there is told with the way to it. */
function inside(name, step) {
  try { return step(); } catch (error) {
    if (!(error instanceof Wrong)) throw error;
    const { why, path } = error;
    throw new Wrong(why, shown(name) + (path === undefined || path[0] === "[" ? "" : ".") + (path ?? ""));
  }
}

/** A table of types: `new Table(JSON.parse(text))`, of what `wire check FILES json` prints. */
export class Table {
  #empty = 65536; // how many elements that take no bytes a list may have
  constructor(table) {
    if (table?.version !== 1 || !Array.isArray(table.types) || !Array.isArray(table.nodes)) {
      throw new TypeError("a table that `wire check FILES json` prints is needed, of version 1");
    }
    this.types = Array.from(table.types, own);
    this.nodes = Array.from(table.nodes, ownNode);
    this.#check();
  }
  #check() {
    const isCount = (n) => Number.isInteger(n) && n >= 0;
    for (const node of this.nodes) {
      if (!isObject(node)) throw new TypeError("the table has a node that is no object");
      const isWhole = (node.kind !== "array" || isCount(node.count)) && (node.most == null || isCount(node.most)) &&
        (node.kind !== "fixed" || (isInteger(node.integer) && ["little", "big"].includes(node.order)));
      if (!this.#hasParts(node) || !isWhole) throw new TypeError(`the table has a node that isn't known: ${JSON.stringify(node)}`);
    }
    if (!this.types.every((it) => this.#isNamed(it))) throw new TypeError("the table has a type without a node");
  }
  #isPlace(n) { return Number.isInteger(n) && n >= 0 && n < this.nodes.length; }
  #isNamed(it) { return isObject(it) && typeof it.name === "string" && this.#isPlace(it.node); }
  /** Whether a node's kind is known, and the node has the parts of that kind, whatever else it has. */
  #hasParts(node) {
    const part = PARTS.get(node.kind);
    if (part === undefined) return NO_PARTS.has(node.kind) || isInteger(node.kind);
    if (part === "node") return this.#isPlace(node.node);
    const parts = node[part] ?? (node.kind === "enum" ? [] : undefined);
    if (!Array.isArray(parts)) return false;
    if (part === "nodes") return parts.every((it) => this.#isPlace(it));
    return parts.every((it) => this.#isNamed(it)) && new Set(parts.map((it) => it.name)).size === parts.length;
  }
  /** The names of the declared types, in their order. Where several have one name, each is that name and its line: `Config:7`. */
  get names() {
    const counts = new Map();
    for (const { name } of this.types) counts.set(name, (counts.get(name) ?? 0) + 1);
    return this.types.map(({ name, line }) => counts.get(name) > 1 ? `${name}:${line}` : name);
  }
  /** The place of the declared type that has this name among `names`; undefined if none or several have it. */
  placeOf(name) {
    const { names } = this, i = names.indexOf(name);
    return i < 0 || names.includes(name, i + 1) ? undefined : this.types[i].node;
  }

  #mayBeNull(place) {
    for (let i = 0; i <= this.nodes.length; i++) {
      const node = this.nodes[place];
      if (node.kind !== "newtype") return ["unit", "empty", "option"].includes(node.kind);
      place = node.node;
    }
    return true;
  }
  #hasTextKeys(pair) {
    const { kind, nodes } = this.nodes[pair];
    if (kind !== "tuple" || nodes.length !== 2) return false;
    let place = nodes[0];
    for (let i = 0; i <= this.nodes.length; i++) {
      const node = this.nodes[place];
      if (node.kind === "enum") return (node.variants ?? []).every((it) => this.nodes[it.node].kind === "empty");
      if (node.kind !== "newtype") return INTEGER.test(node.kind) || ["bool", "char", "text", "fixed"].includes(node.kind);
      place = node.node;
    }
    return false;
  }

  // ---- reading

  /** Throws a TypeError for a place that isn't of the table, as that of a name that it hasn't. */
  #checkPlace(place) {
    if (!this.#isPlace(place)) throw new TypeError(`the table has no place ${String(place)}`);
  }

  /** The JSON of the value at the front of these bytes. Throws Unread if there is none, or one that nests deeper than `depth` nodes. */
  read(place, bytes, options = {}) {
    const { depth, empty, hex } = optionsOf(options);
    this.#checkPlace(place);
    const state = { source: new Source(bytes), deepest: 0, empty: BigInt(empty), hex, last: 0, without: 0 };
    const text = onStack(() => this.#value(place, state, 1), new Unread("too_deep"));
    if (state.deepest > depth) throw new Unread("too_deep");
    return text;
  }
  #value(place, state, level) {
    if (level > GREATEST_DEPTH) throw new Unread("damaged");
    state.deepest = Math.max(state.deepest, level);
    const node = this.nodes[place], { source } = state;
    if (source.at !== state.last) [state.last, state.without] = [source.at, 0];
    else if (++state.without > MOST_WITHOUT_BYTES) throw new Unread("damaged");
    switch (node.kind) {
      case "bool": return ["false", "true"][this.#flag(source)];
      case "u8": return String(source.byte());
      case "i8": return String((source.byte() << 24) >> 24);
      case "u16": case "u32": case "u64": case "u128": return String(source.varint(Number(node.kind.slice(1))));
      case "i16": case "i32": case "i64": case "i128": return String(unzigzag(source.varint(Number(node.kind.slice(1)))));
      case "fixed": return String(fixedOf(source.take(Number(node.integer.slice(1)) / 8), node.integer, node.order));
      case "f32": case "f64": return printFloat(node.kind, fixedOf(source.take(WIDTHS[node.kind].bytes), "u", "little"));
      case "char": return quoted(this.#char(source));
      case "text": return quoted(this.#text(source, node.most));
      case "bytes": return this.#bytes(source.take(this.#count(source, null)), state);
      case "option": return this.#option(node, state, level);
      case "list": case "map": return this.#list(node, state, level);
      case "array": return this.#elements(node.node, BigInt(node.count), state, level);
      case "newtype": return this.#value(node.node, state, level + 1);
      case "struct": return `{${node.fields.map((it) => `${quoted(it.name)}:${this.#value(it.node, state, level + 1)}`).join(",")}}`;
      case "tuple": return `[${node.nodes.map((it) => this.#value(it, state, level + 1)).join(",")}]`;
      case "enum": return this.#variant(node, state, level);
      default: return "null"; // unit, empty
    }
  }
  #flag(source) {
    const byte = source.byte();
    if (byte > 1) throw new Unread("damaged");
    return byte;
  }
  /** How many elements or bytes follow: no more than the type may have, nor than a number can say. */
  #count(source, most) {
    const n = source.count();
    if ((most !== null && most !== undefined && n > BigInt(most)) || n > BigInt(Number.MAX_SAFE_INTEGER)) throw new Unread("damaged");
    return Number(n);
  }
  #text(source, most) {
    try { return UTF8.decode(source.take(this.#count(source, most))); } catch { throw new Unread("damaged"); }
  }
  #char(source) {
    const [first] = this.#text(source, 4);
    if (first === undefined) throw new Unread("damaged");
    return first;
  }
  #bytes(bytes, { hex }) {
    return hex ? quoted(Array.from(bytes, (it) => it.toString(16).padStart(2, "0")).join("")) : `[${bytes.join(",")}]`;
  }
  #option(node, state, level) {
    if (this.#flag(state.source) === 0) return "null";
    const text = this.#value(node.node, state, level + 1);
    return this.#mayBeNull(node.node) ? `{"Some":${text}}` : text;
  }
  #list(node, state, level) {
    const n = BigInt(this.#count(state.source, node.most));
    if (this.nodes[node.node].size === 0 && n > state.empty) throw new Unread("damaged");
    if (node.kind === "map" && this.#hasTextKeys(node.node)) return this.#pairs(node.node, n, state, level);
    return this.#elements(node.node, n, state, level);
  }
  #elements(place, n, state, level) {
    if (this.nodes[place].kind === "u8" && state.hex) return this.#bytes(state.source.take(Number(n)), state);
    const items = [], { at } = state.source;
    for (let i = 0n; i < n; i++) {
      this.#bounded(i, at, state);
      items.push(this.#value(place, state, level + 1));
    }
    return `[${items.join(",")}]`;
  }
  /** Ends what would go on for long without a byte: the table may be wrong about what takes none. */
  #bounded(i, at, { source, empty }) {
    if (i >= empty && source.at === at) throw new Unread("damaged");
  }
  #pairs(pair, n, state, level) {
    const [key, held] = this.nodes[pair].nodes, members = [], { at } = state.source;
    for (let i = 0n; i < n; i++) {
      this.#bounded(i, at, state);
      state.deepest = Math.max(state.deepest, level + 1);
      const text = this.#value(key, state, level + 2);
      members.push(`${text[0] === '"' ? text : `"${text}"`}:${this.#value(held, state, level + 2)}`);
    }
    return `{${members.join(",")}}`;
  }
  #variant(node, state, level) {
    const index = Number(state.source.varint(32)), parts = node.variants ?? [];
    if (index >= parts.length) throw new Unread("damaged");
    const { name, node: held } = parts[index], text = this.#value(held, state, level + 1);
    return this.nodes[held].kind === "empty" ? quoted(name) : `{${quoted(name)}:${text}}`;
  }

  // ---- writing

  /**
   * The bytes of the value that a line of JSON is, by itself or as `{"value": ..}`. If it can be both, and they are two values, it is Wrong, and
   * `wrapped` says which is meant: true takes what `{"value": ..}` holds, false the whole. Throws Wrong, with the way to what is wrong.
   */
  write(place, line, options = {}) {
    const { depth, empty, wrapped } = optionsOf(options);
    this.#checkPlace(place);
    this.#empty = empty;
    const json = onStack(() => parseJson(line, 2 * depth + 2), new Wrong(TOO_DEEP));
    const whole = () => this.#bytesOf(place, json, depth);
    const isWrapped = json.members?.length === 1 && json.members[0][0] === "value";
    if (wrapped && !isWrapped) throw new Wrong('expected {"value": ..}');
    if (wrapped === false || !isWrapped) return whole();
    let held, alone;
    try { held = this.#bytesOf(place, json.members[0][1], depth); } catch (error) {
      if (wrapped || !(error instanceof Wrong)) throw error;
      try { return whole(); } catch { throw error; }
    }
    if (wrapped) return held;
    try { alone = whole(); } catch (error) {
      if (error instanceof Wrong) return held;
      throw error;
    }
    if (alone.length === held.length && alone.every((byte, i) => byte === held[i])) return held;
    throw new Wrong(BOTH);
  }
  #bytesOf(place, json, depth) {
    const out = [];
    onStack(() => this.#put(out, place, json, depth), new Wrong(TOO_DEEP));
    return Uint8Array.from(out);
  }
  #put(out, place, json, depth) {
    if (depth === 0) throw new Wrong(TOO_DEEP);
    const node = this.nodes[place];
    switch (node.kind) {
      case "bool": if (json.truth === undefined) throw new Wrong("expected true or false"); out.push(json.truth ? 1 : 0); break;
      case "char": case "text": this.#putText(out, node, json); break;
      case "bytes": this.#putBytes(out, json); break;
      case "f32": case "f64": out.push(...bytesOfFixed(parseFloatBits(node.kind, json), 8 * WIDTHS[node.kind].bytes, "little")); break;
      case "option": this.#putOption(out, node, json, depth - 1); break;
      case "list": case "map": this.#putList(out, node, json, depth - 1); break;
      case "array": this.#putArray(out, node, json, depth - 1); break;
      case "newtype": this.#put(out, node.node, json, depth - 1); break;
      case "struct": this.#putStruct(out, node, json, depth - 1); break;
      case "tuple": this.#putTuple(out, node, json, depth - 1); break;
      case "enum": this.#putVariant(out, node, json, depth - 1); break;
      case "unit": case "empty": if (!json.null) throw new Wrong("expected a struct without fields"); break;
      default: this.#putNumber(out, node, json);
    }
  }
  #putNumber(out, node, json) {
    if (json.number === undefined) throw new Wrong("expected a number");
    const integer = integerIn(node), n = integerOf(integer, json.number);
    if (n !== undefined) return this.#putInteger(out, node, n);
    throw new Wrong(/[.eE]/.test(json.number) ? "expected a number without fraction or exponent" : rangeOf(integer));
  }
  #putInteger(out, node, n) {
    if (node.kind === "fixed") out.push(...bytesOfFixed(n, Number(node.integer.slice(1)), node.order));
    else if (node.kind.slice(1) === "8") out.push(Number(BigInt.asUintN(8, n)));
    else putVarint(out, node.kind[0] === "i" ? zigzag(n) : n);
  }
  #putText(out, node, json) {
    const isChar = node.kind === "char";
    if (json.text === undefined) throw new Wrong(isChar ? "expected a string of one character" : "expected a string");
    this.#putString(out, node, json.text);
  }
  #putString(out, node, text) {
    const bytes = TEXT.encode(text);
    if (node.kind === "char" && [...text].length !== 1) throw new Wrong("expected a string of one character");
    if (node.kind === "text" && node.most !== null && bytes.length > node.most) throw new Wrong("the string is too long");
    putVarint(out, BigInt(bytes.length));
    for (const byte of bytes) out.push(byte);
  }
  #digits(text) {
    if (text.length % 2 || !/^[0-9a-fA-F]*$/.test(text)) throw new Wrong("the string isn't hexadecimal");
    return Array.from(text.matchAll(/../g), ([it]) => parseInt(it, 16));
  }
  #putBytes(out, json) {
    const bytes = json.text !== undefined ? this.#digits(json.text) : json.items?.map((it, i) => inside(`[${i}]`, () => {
      if (it.number === undefined) throw new Wrong("expected a byte");
      const n = integerOf("u8", it.number);
      if (n === undefined) throw new Wrong(rangeOf("u8"));
      return Number(n);
    }));
    if (!bytes) throw new Wrong("expected an array of bytes or a string of hexadecimal digits");
    putVarint(out, BigInt(bytes.length));
    for (const byte of bytes) out.push(byte);
  }
  #putOption(out, node, json, depth) {
    if (json.null) return void out.push(0);
    let held = json;
    if (this.#mayBeNull(node.node)) {
      if (json.members?.length !== 1 || json.members[0][0] !== "Some") throw new Wrong('expected null or {"Some": ..}');
      held = json.members[0][1];
    }
    out.push(1);
    this.#put(out, node.node, held, depth);
  }
  /** Appends elements, and says how many there were. */
  #putElements(out, place, json, depth) {
    const isByte = this.nodes[place].kind === "u8";
    if (json.text !== undefined && isByte && depth > 0) {
      const bytes = this.#digits(json.text);
      for (const byte of bytes) out.push(byte);
      return bytes.length;
    }
    if (!json.items) throw new Wrong(isByte ? "expected an array of bytes or a string of hexadecimal digits" : "expected an array");
    for (const [i, it] of json.items.entries()) inside(`[${i}]`, () => this.#put(out, place, it, depth));
    return json.items.length;
  }
  #putList(out, node, json, depth) {
    const items = [];
    let n;
    if (node.kind === "list") n = this.#putElements(items, node.node, json, depth);
    else if (json.members && this.#hasTextKeys(node.node)) n = this.#putPairs(items, node.node, json.members, depth);
    else if (json.items) n = this.#putElements(items, node.node, json, depth);
    else throw new Wrong("expected an object or an array of pairs");
    const most = node.most ?? (this.nodes[node.node].size === 0 ? this.#empty : n);
    if (n > most) throw new Wrong("the list has more elements than the type allows");
    putVarint(out, BigInt(n));
    for (const byte of items) out.push(byte);
  }
  #putPairs(out, pair, members, depth) {
    const [key, held] = this.nodes[pair].nodes;
    for (const [name, json] of members) {
      inside(name, () => {
        if (depth === 0) throw new Wrong(TOO_DEEP);
        this.#putKey(out, key, name, depth - 1);
        this.#put(out, held, json, depth - 1);
      });
    }
    return members.length;
  }
  #putKey(out, place, name, depth) {
    if (depth === 0) throw new Wrong(TOO_DEEP);
    const node = this.nodes[place];
    if (node.kind === "newtype") return this.#putKey(out, node.node, name, depth - 1);
    if (node.kind === "bool") {
      if (name !== "true" && name !== "false") throw new Wrong("the key is neither true nor false");
      return void out.push(name === "true" ? 1 : 0);
    }
    if (node.kind === "char" || node.kind === "text") return this.#putString(out, node, name);
    if (node.kind === "enum") {
      const index = node.variants.findIndex((it) => it.name === name);
      if (index < 0) throw new Wrong("the type has no such variant");
      return putVarint(out, BigInt(index));
    }
    const integer = integerIn(node), n = integerOf(integer, name);
    if (n === undefined) throw new Wrong(rangeOf(integer));
    this.#putInteger(out, node, n);
  }
  #putArray(out, node, json, depth) {
    const n = this.#putElements(out, node.node, json, depth);
    if (n !== node.count) throw new Wrong("the array has another length than the type's");
  }
  #putStruct(out, node, json, depth) {
    if (node.fields.length === 0 && json.members?.length !== 0) throw new Wrong("expected a struct without fields");
    if (!json.members) throw new Wrong("expected an object with the fields");
    for (const { name, node: place } of node.fields) {
      inside(name, () => {
        const found = json.members.find(([key]) => key === name);
        if (!found) throw new Wrong("a field is missing");
        this.#put(out, place, found[1], depth);
      });
    }
    if (json.members.length === node.fields.length) return;
    const names = json.members.map(([key]) => key);
    const unknown = names.find((key) => !node.fields.some((it) => it.name === key));
    if (unknown !== undefined) throw new Wrong("the type has no such field", shown(unknown));
    const twice = names.find((key, i) => names.indexOf(key, i + 1) >= 0);
    throw new Wrong("the field appears twice", shown(twice));
  }
  #putTuple(out, node, json, depth) {
    if (node.nodes.length === 0 && json.items?.length !== 0) throw new Wrong("expected a struct without fields");
    if (json.items?.length !== node.nodes.length) throw new Wrong("expected an array with as many elements as the tuple has");
    node.nodes.forEach((place, i) => inside(`[${i}]`, () => this.#put(out, place, json.items[i], depth)));
  }
  #putVariant(out, node, json, depth) {
    const [name, held] = json.text !== undefined ? [json.text] : json.members?.length === 1 ? json.members[0] : [];
    if (name === undefined) throw new Wrong("expected a variant");
    const index = (node.variants ?? []).findIndex((it) => it.name === name);
    if (index < 0) throw new Wrong("the type has no such variant", shown(name));
    const place = node.variants[index].node, isEmpty = this.nodes[place].kind === "empty";
    putVarint(out, BigInt(index));
    inside(name, () => {
      if (!held && !isEmpty) throw new Wrong("the variant has fields: expected an object with its name as the key");
      if (held && isEmpty && !held.null) throw new Wrong("the variant has no fields: expected its name alone");
      if (!isEmpty) this.#put(out, place, held, depth);
      else if (depth === 0) throw new Wrong(TOO_DEEP);
    });
  }
}
