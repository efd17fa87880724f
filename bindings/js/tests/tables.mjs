// table.mjs over tables that are made at random, which may be hostile: bytes are a value or are refused, in time; what is read is JSON; what is
// written of that is read as the same; what isn't of the type is refused as such. Numbers at the edges of their types, by their bytes.
// usage: node tables.mjs [ROUNDS]
import assert from "node:assert";
import { runInNewContext } from "node:vm";
import { BOTH, Table, Unread, Wrong } from "../table.mjs";

const rounds = Number(process.argv[2] ?? 1000);
let seed = 7;
const some = (n) => { seed = (seed * 1103515245 + 12345) & 0x7fffffff; return (seed >> 8) % n; };
const one = (...of) => of[some(of.length)];
const PLAIN = ["bool", "u8", "i8", "u16", "i16", "u32", "i32", "u64", "i64", "u128", "i128", "f32", "f64", "char", "bytes", "unit", "empty"];

function node(count) {
  const place = () => some(count), parts = (name) => Array.from({ length: some(4) }, (_, i) => ({ name: `${name}${i}`, node: place() }));
  const size = one(null, null, 0, 1);
  switch (some(12)) {
    case 0: return { kind: "option", node: place(), size };
    case 1: return { kind: one("list", "map"), most: one(null, null, 3), node: place(), size };
    case 2: return { kind: "array", count: one(0, 1, 3, 1e9), node: place(), size };
    case 3: return { kind: "newtype", node: place(), size };
    case 4: return { kind: "struct", fields: parts("f"), size };
    case 5: return { kind: "tuple", nodes: parts("").map((it) => it.node), size };
    case 6: return { kind: "enum", variants: parts("V"), size };
    case 7: return { kind: "text", most: one(null, 5), size };
    case 8: return { kind: "fixed", integer: one("u16", "i32", "u64", "i128"), order: one("little", "big"), size };
    default: return { kind: one(...PLAIN), size: null };
  }
}
let read = 0, refused = 0;
for (let k = 0; k < rounds; k++) {
  const count = 1 + some(9), nodes = Array.from({ length: count }, () => node(count));
  const table = new Table({ version: 1, types: [{ name: "T", line: 1, node: some(count) }], nodes }), place = table.placeOf("T");
  const options = { empty: 100 };
  for (let j = 0; j < 6; j++) {
    const bytes = Uint8Array.from({ length: some(40) }, () => one(0, 1, 1, 2, 3, 65, some(256)));
    let text;
    try { text = table.read(place, bytes, options); } catch (error) {
      if (!(error instanceof Unread)) throw error;
      refused++;
      continue;
    }
    read++;
    JSON.parse(text);
    const written = table.write(place, text, options), again = table.read(place, written, options);
    assert.equal(again, text);
    assert.deepEqual(table.write(place, `{"value":${text}}`, options), written);
    const other = one("null", "1", "-1.5", '"x"', "[]", "{}", '{"V0":null}', "[1,2", `${text}x`, text.replace(/\d/, "99999999999999999999"));
    try { table.read(place, table.write(place, other, options), options); } catch (error) { if (!(error instanceof Wrong) && !(error instanceof Unread)) throw error; }
  }
}

// by the rules of postcard
const of = (...nodes) => new Table({ version: 1, types: [{ name: "T", line: 1, node: 0 }], nodes });
const hex = (bytes) => Buffer.from(bytes).toString("hex");
const cases = [
  [of({ kind: "u8" }), "255", "ff"], [of({ kind: "i8" }), "-128", "80"], [of({ kind: "u16" }), "65535", "ffff03"], [of({ kind: "i16" }), "-32768", "ffff03"],
  [of({ kind: "u64" }), "18446744073709551615", "ffffffffffffffffff01"], [of({ kind: "i64" }), "-9223372036854775808", "ffffffffffffffffff01"],
  [of({ kind: "u128" }), String(2n ** 128n - 1n), "ffffffffffffffffffffffffffffffffffff03"], [of({ kind: "i128" }), String(-(2n ** 127n)), "ffffffffffffffffffffffffffffffffffff03"],
  [of({ kind: "f32" }), "0.1", "cdcccc3d"], [of({ kind: "f64" }), "-2.5", "00000000000004c0"], [of({ kind: "char" }), '"€"', "03e282ac"],
  [of({ kind: "fixed", integer: "u32", order: "big" }), "1", "00000001"], [of({ kind: "option", node: 1 }, { kind: "unit" }), '{"Some":null}', "01"],
];
for (const [table, json, bytes] of cases) {
  assert.equal(hex(table.write(0, json)), bytes);
  assert.equal(table.read(0, Buffer.from(bytes, "hex")), json);
}
// numbers between two floats of 32 bits: what a double has rounded isn't rounded again
const single = of({ kind: "f32" });
for (const [json, bits] of [["1.000000059604644775390625", "0000803f"], ["1.0000000596046447753906251", "0100803f"], ["1.000000178813934326171874999999", "0100803f"],
  ["340282356779733661637539395458142568447", "ffff7f7f"], ["1e-45", "01000000"], ["7.006492321624085354618e-46", "00000000"]]) {
  assert.equal(hex(single.write(0, json)), bits, json);
}
assert.throws(() => single.write(0, "340282356779733661637539395458142568448"), Wrong);
// where two shortest decimals are as near, the even one, as ryu and `wire` have it
for (const [json, bits] of [["2097152.2", "0100004a"], ["2097152.8", "0300004a"], ["-2862615.2", "5db82eca"], ["3427355.2", "6d30514a"]]) {
  assert.equal(single.read(0, Buffer.from(bits, "hex")), json);
}
// what isn't bytes, a line or a place is refused, and no value is made of it; digits and texts of many bytes are values
for (const it of [new ArrayBuffer(8), new DataView(new ArrayBuffer(8)), Uint16Array.of(700, 700), [700, 700, 700, 700], "abcd", undefined]) {
  assert.throws(() => single.read(0, it), TypeError);
  assert.throws(() => of({ kind: "u8" }).read(0, it), TypeError);
}
const gone = new Uint8Array(4);
structuredClone(gone.buffer, { transfer: [gone.buffer] });
assert.throws(() => of({ kind: "unit" }).read(0, gone), TypeError); // transferred bytes aren't none
assert.equal(of({ kind: "u8" }).read(0, runInNewContext("new Uint8Array([7])")), "7"); // of another realm
for (const it of [{ f: 1 }, 5, null, undefined]) assert.throws(() => single.write(0, it), /a text is needed/);
for (const it of [undefined, 1, -1, "T", "0", "length", Symbol.iterator]) {
  assert.throws(() => single.read(it, new Uint8Array(4)), /no place/);
  assert.throws(() => single.write(it, "1.5"), /no place/);
}
assert.equal(of({ kind: "list", node: 1, most: null }, { kind: "u8" }).write(0, `"${"00".repeat(200000)}"`).length, 200003);
assert.equal(of({ kind: "text", most: null }).write(0, `"${"x".repeat(1e7)}"`).length, 1e7 + 4);
// how deep a value may be: up to 1000, and as far as the engine's stack goes; no other error is thrown where that ends
const lists = of({ kind: "list", node: 0, most: null }), deep = "[".repeat(1000) + "]".repeat(1000), bytes = lists.write(0, deep, { depth: 1000 });
assert.equal(lists.read(0, bytes, { depth: 1000 }), deep);
for (const depth of [0, 1001, NaN, "60"]) {
  assert.throws(() => lists.read(0, bytes, { depth }), /depth is a number from 1 to 1000/);
  assert.throws(() => lists.write(0, deep, { depth }), /depth is a number from 1 to 1000/);
}
function atStacksEnd(step) {
  try { return atStacksEnd(step); } catch (error) {
    if (!(error instanceof RangeError)) throw error;
    return step();
  }
}
assert.throws(() => atStacksEnd(() => lists.write(0, deep, { depth: 1000 })), Wrong);
assert.throws(() => atStacksEnd(() => lists.read(0, bytes, { depth: 1000 })), Unread);
// a line that is a value by itself and by what it holds: one value, two, which `wrapped` tells apart, or one of them
const held = { kind: "struct", fields: [{ name: "value", node: 1 }] }, list = of(held, { kind: "option", node: 0 });
const [none, some1, some2] = ["null", '{"value":null}', '{"value":{"value":null}}'].map((it) => `{"value":${it}}`);
assert.equal(hex(list.write(0, none)), "00");
assert.deepEqual([true, false].map((wrapped) => hex(list.write(0, some1, { wrapped }))), ["00", "0100"]);
assert.deepEqual([true, false].map((wrapped) => hex(list.write(0, some2, { wrapped }))), ["0100", "010100"]);
for (const it of [some1, some2]) assert.throws(() => list.write(0, it), new RegExp(`^Error: ${BOTH.replaceAll(/[{}.]/g, "\\$&")}$`));
assert.throws(() => list.write(0, none, { wrapped: true }), /expected an object with the fields/);
assert.throws(() => of({ kind: "u8" }).write(0, "1", { wrapped: true }), /expected \{"value": \.\.\}/);
assert.throws(() => of({ kind: "u8" }).write(0, '{"value":1}', { wrapped: false }), /expected a number/);
assert.throws(() => list.write(0, none, { wrapped: 1 }), TypeError);
// the way to what is wrong is as `wire` tells it: with escapes for what controls a terminal, also of a name without letters
const lit = of({ kind: "enum", variants: [{ name: "Lit", node: 1 }] }, { kind: "map", node: 2, most: null }, { kind: "tuple", nodes: [3, 4] }, { kind: "text", most: null }, { kind: "u8" });
for (const [json, said] of [['{"Lit":{"\\u0000\\b\\t\\u001b[0m\\u007f\\u0085\\u00a0\\\\":""}}', "Lit.\\u0000\\u0008\\t\\u001b[0m\\u007f\\u0085\u00a0\\: expected a number"],
  ['{"Lit":{"":""}}', "Lit.: expected a number"], ['""', ": the type has no such variant"], ['{"Lit":{"[":{}}}', "Lit[: expected a number"], ["1", "expected a variant"]]) {
  assert.throws(() => lit.write(0, json), { message: said });
}
// options that would be ignored, and bytes that a buffer has no room for any more
for (const [options, said] of [[{ depht: 3 }, /no option is called depht: write depth/], [7, /options are an object/], [null, /options are an object/], [new Map(), /options are an object/],
  [{ hex: "no" }, /hex is true or false/], [{ empty: NaN }, /empty is a number/], [{ empty: "1" }, /empty is a number/]]) {
  assert.throws(() => list.write(0, none, options), said);
  assert.throws(() => list.read(0, Uint8Array.of(0), options), said);
}
const shrunk = new ArrayBuffer(8, { maxByteLength: 8 }), outside = new Uint8Array(shrunk, 4, 4);
if (shrunk.resizable) {
  shrunk.resize(2);
  assert.throws(() => of({ kind: "unit" }).read(0, outside), /bytes are gone/);
}
// a table whose values have no end of parts without a byte: they are refused, in time
const doubled = Array.from({ length: 40 }, (_, i) => ({ kind: "tuple", nodes: [i + 1, i + 1] }));
assert.throws(() => of(...doubled, { kind: "unit" }).read(0, Uint8Array.of()), Unread);
assert.equal(of(...doubled.slice(30).map((it, i) => ({ ...it, nodes: [i + 1, i + 1] })), { kind: "unit" }).read(0, Uint8Array.of()).match(/null/g).length, 1024);
// neither what the caller does to a table later nor what others put into Object.prototype is of a type
const nodes = [{ kind: "u8" }], changed = of(...nodes);
nodes[0].kind = "text";
assert.equal(hex(changed.write(0, "7")), "07");
const given = { version: 1, types: [{ name: "T", line: 1, node: 0 }], nodes: [{ kind: "struct", fields: [{ name: "a", node: 1 }] }, { kind: "u8" }] }, kept = new Table(given);
Object.assign(given.nodes[0].fields[0], { name: "b", node: 9 });
given.nodes[0].fields.push({ name: "c", node: 1 });
given.types[0].name = "U";
assert.deepEqual([hex(kept.write(kept.placeOf("T"), '{"a":7}')), kept.names], ["07", ["T"]]);
assert.throws(() => of({ kind: "tuple", nodes: new Array(1) }), /the table has a node that/); // a hole is no part
Object.prototype.most = 1;
Object.prototype.wrapped = true;
try { assert.equal(hex(of({ kind: "text" }).write(0, '"ab"')), "026162"); } finally {
  delete Object.prototype.most;
  delete Object.prototype.wrapped;
}
// a table that isn't whole is refused as such, before bytes are read by it
for (const node of [null, 5, { kind: "struct" }, { kind: "tuple" }, { kind: "option" }, { kind: "list", most: -1, node: 0 }, { kind: "array", node: 0 },
  { kind: "array", node: 0, count: -1 }, { kind: "array", count: 1 }, { kind: "fixed", integer: "u16" }, { kind: "text", most: "5" }, { kind: "other", undefined: 0 },
  { kind: "struct", fields: [{ name: "a", node: 0 }, { name: "a", node: 0 }] }, { kind: "enum", variants: [{ name: "A", node: 0 }, { name: "A", node: 0 }] },
  { kind: ["u8"] }, { kind: "struct", fields: 5 }, { kind: "struct", fields: [null] }, { kind: "struct", node: 0, fields: [{ name: "a", node: 9 }] }, { kind: "tuple", nodes: "0" },
  { kind: "enum", variants: [undefined] }, { kind: "enum", nodes: [0], variants: [{ name: "A" }] }, { kind: "fixed", integer: ["u16"], order: "big" }]) {
  assert.throws(() => of({ kind: "u8" }, node), /the table has a node that/, JSON.stringify(node));
}
for (const it of [null, undefined, 5, { name: "T" }, { name: "T", node: 1 }, { node: 0 }]) {
  assert.throws(() => new Table({ version: 1, types: [it], nodes: [{ kind: "u8" }] }), /a type without a node/);
}
assert.throws(() => of({ kind: "u8", integer: "u16" }).write(0, "300"), /from 0 to 255/); // a member of another kind says nothing
assert.equal(of({ kind: "map", node: 1 }, { kind: "u8", nodes: "ab" }).read(0, Uint8Array.of(1, 7)), "[7]");
// types of one name are told apart by their lines; without a line none is chosen
const twice = new Table({ version: 1, types: [["Config", 3, 0], ["Config", 7, 1], ["All", 9, 1]].map(([name, line, node]) => ({ name, line, node })), nodes: [{ kind: "u8" }, { kind: "u16" }] });
assert.deepEqual(twice.names, ["Config:3", "Config:7", "All"]);
assert.deepEqual(["Config", "Config:3", "Config:7", "All", "All:9", "Other"].map((name) => twice.placeOf(name)), [undefined, 0, 1, 1, undefined, undefined]);
// so many types would take an hour if each were compared with all
const many = new Table({ version: 1, types: Array.from({ length: 200000 }, (_, i) => ({ name: i % 2 ? `T${i}` : "T", line: i, node: 0 })), nodes: [{ kind: "u8" }] });
assert.deepEqual([many.names[2], many.placeOf("T199999"), many.placeOf("T")], ["T:2", 0, undefined]);
console.log(`${rounds} tables made at random: ${read} values read, written and read again, ${refused} refused; ${cases.length} numbers at their edges`);
