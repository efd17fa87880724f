// The program `wire` by table.mjs, for tests/held, which gives the scripts that hold `wire` to its vectors this in its place: calls come
// in as lines of JSON, and go out likewise. Declarations are read by the real `wire`, which WIRE_REAL names: what it says of each file is
// stored in the file that TABLES names, by the file's sum, and taken from there where none is named. FRAMES is a module in the place of
// frames.mjs.
import { createHash } from "node:crypto";
import { existsSync, readFileSync, statSync, writeFileSync } from "node:fs";
import { createInterface } from "node:readline";
import { spawnSync } from "node:child_process";
import { BOTH, Table, Unread, Wrong } from "../table.mjs";

const LIMIT = 65536;
const UTF8 = new TextDecoder("utf-8", { fatal: true, ignoreBOM: true });
const { WIRE_REAL, TABLES, FRAMES } = process.env;
const frames = await import(FRAMES ?? "../frames.mjs");
await frames.load();
const stored = TABLES && existsSync(TABLES) ? JSON.parse(readFileSync(TABLES, "utf8")) : {};
const tables = new Map();

/** What the real program says of declarations. */
function check(file, ...more) {
  const text = existsSync(file) && statSync(file).isFile() ? readFileSync(file) : file;
  const key = `${createHash("sha256").update(text).digest("hex").slice(0, 16)} ${more.join(" ")}`;
  if (!WIRE_REAL) {
    if (!stored[key]) throw new Error(`no table is stored for ${file}: name a wire by WIRE_REAL`);
    return stored[key];
  }
  const { status, stdout, stderr } = spawnSync(WIRE_REAL, ["check", file, ...more], { encoding: "utf8" });
  stored[key] = { status, stdout, stderr: stderr.replaceAll(file, "FILE") };
  return stored[key];
}
const told = (words, name, otherwise, base) => {
  const found = words.find((word) => word.startsWith(`${name}=`));
  return found ? parseInt(found.slice(name.length + 1), base) : otherwise;
};
const lookOf = (words) => ({ depth: told(words, "depth", 60, 10), empty: told(words, "empty", 65536, 10), hex: words.includes("bytes=hex") });
function read(table, place, words, given) {
  const bytes = words.includes("hex") ? Buffer.from(given.toString().replace(/\s/g, ""), "hex") : given, before = told(words, "from", 0, 10);
  const receiver = new frames.Receiver(LIMIT, { plain: true, sentinel: told(words, "sentinel", 0, 16) });
  let all = true, out = "";
  const note = (kind, from, to) => { all = false; out += `{"${kind}":{"from":${before + from},"to":${before + to}}}\n`; };
  for (const event of receiver.push(bytes.subarray(before))) {
    const from = event.end - event.length;
    if (event.kind === "tooLong") { note("too_long", from, event.end + 1); continue; }
    try {
      if (event.kind === "damaged") throw new Unread("damaged");
      out += `{"value":${table.read(place, event.bytes, lookOf(words))}}\n`;
    } catch (error) {
      if (!(error instanceof Unread)) throw error;
      note(error.kind, from, event.end);
    }
  }
  const cut = receiver.finish();
  if (cut) note("cut", bytes.length - before - cut.length, bytes.length - before);
  return { status: all ? 0 : 1, out: Buffer.from(out), errors: "" };
}
/** A line that is two values is the second, as the program takes it. */
function written(table, place, line, look) {
  try { return table.write(place, line, look); } catch (error) {
    if (error.why !== BOTH) throw error;
    return table.write(place, line, { ...look, wrapped: true });
  }
}
function write(table, place, words, given) {
  const sentinel = told(words, "sentinel", 0, 16), sender = new frames.Sender({ plain: true, sentinel }), made = [Buffer.of(sentinel)];
  sender.sent(); // the line begins with a sentinel, whatever follows
  let errors = "", k = 0;
  for (let from = 0; from < given.length; ) {
    const found = given.indexOf(10, from), end = found < 0 ? given.length : found;
    k++;
    try {
      let line;
      try { line = UTF8.decode(given.subarray(from, end)); } catch { throw new Wrong("the line isn't UTF-8"); }
      const frame = sender.send(written(table, place, line, lookOf(words)));
      sender.sent();
      if (frame.length - 1 > LIMIT) throw new Wrong("the frame has more than 65536 bytes, which `read` doesn't take");
      made.push(frame);
    } catch (error) {
      if (!(error instanceof Wrong)) throw error;
      errors += `line ${k}: ${error.message}\n`;
    }
    from = end + 1;
  }
  const out = Buffer.concat(made);
  return { status: errors ? 1 : 0, out: words.includes("hex") ? Buffer.from(`${out.toString("hex")}\n`) : out, errors };
}
function run([call, file, ...words], given) {
  const said = check(file, ...(call === "check" ? words : ["json"]));
  if (call === "check") return { status: said.status, out: Buffer.from(said.stdout), errors: said.stderr.replaceAll("FILE", file) };
  // a table has the types of files that are taken whole, by their names: what else a call may name is left to the program
  if (said.status) return { untold: true };
  if (!tables.has(said.stdout)) tables.set(said.stdout, new Table(JSON.parse(said.stdout)));
  const table = tables.get(said.stdout), place = table.placeOf(words[0]);
  if (place === undefined) return { untold: true };
  return (call === "read" ? read : write)(table, place, words.slice(1), given);
}

for await (const line of createInterface({ input: process.stdin })) {
  const { words, given } = JSON.parse(line);
  const said = run(words, Buffer.from(given, "base64"));
  process.stdout.write(`${JSON.stringify({ ...said, out: said.out?.toString("base64") })}\n`);
}
if (TABLES && WIRE_REAL) writeFileSync(TABLES, `${JSON.stringify(stored).replaceAll('},"', '},\n"')}\n`);
