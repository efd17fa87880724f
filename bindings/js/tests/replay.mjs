// Stored vectors through frames.mjs: node replay.mjs FILE ..; lines `cobs_encode`, `cobs_sentinel`, `cobs_decode`, and of `stream` the places
// of what is answered. Other kinds are passed over, since they are of calls that frames.mjs hasn't.
import assert from "node:assert";
import { readFileSync } from "node:fs";
import * as frames from "../frames.mjs";

await frames.load(process.env.FRAMES_WASM ? readFileSync(process.env.FRAMES_WASM) : undefined);
const bytesOf = (text) => (text === "-" || text === "=" ? new Uint8Array(0) : Uint8Array.from(text.match(/../g) ?? [], (it) => parseInt(it, 16)));

function encode(sentinel, message, frame) {
  assert.deepEqual(frames.encode(bytesOf(message), { sentinel }), bytesOf(frame));
  assert.deepEqual(frames.decode(bytesOf(frame), { sentinel }), bytesOf(message));
}
/** A source whose first frame begins at its front: what decoding that frame has to give. More than a frame is refused. */
function decode(source, room, answer, rest) {
  const bytes = bytesOf(source), end = bytes.indexOf(0), frame = end < 0 ? bytes : bytes.subarray(0, end + 1);
  if (bytes.length === 0 || end === 0 || answer === "!TargetBufTooSmall") return false;
  if (frame.length < bytes.length) assert.throws(() => frames.decode(bytes), RangeError);
  if (answer[0] === "!") assert.throws(() => frames.decode(frame), RangeError);
  else assert.deepEqual(frames.decode(frame), bytesOf(rest ?? "-"));
  return true;
}
function stream(sentinel, limit, chunks, answers) {
  const receiver = new frames.Receiver(limit, { sentinel, plain: true });
  chunks.split(",").forEach((chunk, i) => {
    const events = receiver.push(bytesOf(chunk)), wanted = answers[i] === "-" ? [] : answers[i].split(";");
    assert.equal(events.length, wanted.length);
    wanted.forEach((want, k) => {
      const [, at, what] = /^(\d+)(.*)$/.exec(want);
      assert.equal(events[k].end, Number(at));
      assert.equal(events[k].kind === "tooLong", what === "!toolong");
      if (what[0] === "=") assert.equal(events[k].kind, "message");
    });
  });
  assert.equal(receiver.finish() !== undefined, answers[chunks.split(",").length] === "cut");
}

let replayed = 0, passed = 0;
for (const file of process.argv.slice(2)) {
  readFileSync(file, "utf8").split("\n").filter(Boolean).forEach((line, i) => {
    const f = line.split(" ");
    try {
      replayed++;
      if (f[0] === "cobs_encode") encode(0, f[1], f[2]);
      else if (f[0] === "cobs_sentinel") encode(parseInt(f[1], 16), f[2], f[3]);
      else if (f[0] === "cobs_decode" && decode(f[1], f[2], f[4], f[5])) return;
      else if (f[0] === "stream") stream(parseInt(f[1], 16), Number(f[2]), f[5], f[7].split("|"));
      else { replayed--; passed++; }
    } catch (error) {
      console.log(`${file}:${i + 1}: ${line.slice(0, 200)}`);
      throw error;
    }
  });
}
console.log(`${replayed} stored vectors replayed, ${passed} passed over, none differs`);
