// What frames.mjs has to do, written apart from it, by the rules of COBS and of counted messages: byte by byte, a whole stretch at a time.

/** The shortest frame of a message. */
export function frameOf(message) {
  const out = [];
  let run = [];
  for (const byte of message) {
    if (byte !== 0) run.push(byte);
    if (byte === 0 || run.length === 254) {
      out.push(byte === 0 ? run.length + 1 : 255, ...run);
      run = [];
      if (byte === 0) out.push(-1); // a zero is owed: another block follows
      else out.push(-2); // a full block: another one follows unless the message ends here
    }
  }
  const full = out.at(-1) === -2;
  if (!full || run.length) out.push(run.length + 1, ...run);
  return Uint8Array.from(out.filter((it) => it >= 0));
}
/** The message of a frame without its delimiter; undefined if it is none. */
export function messageOf(frame) {
  const out = [];
  for (let at = 0; at < frame.length; ) {
    const code = frame[at], end = at + code;
    if (code === 0 || end > frame.length) return undefined;
    for (const byte of frame.subarray(at + 1, end)) {
      if (byte === 0) return undefined;
      out.push(byte);
    }
    at = end;
    if (code < 255 && at < frame.length) out.push(0);
  }
  return frame.length ? Uint8Array.from(out) : undefined;
}
/** A number in groups of seven bits. */
export function countOf(n) {
  const out = [];
  for (let rest = BigInt(n); ; rest >>= 7n) {
    if (rest < 128n) return [...out, Number(rest)];
    out.push(Number(rest & 127n) | 128);
  }
}
/** The counted message in front of a message; undefined if there is none. */
export function countedOf(message) {
  let n = 0n;
  for (let i = 0; i < 10; i++) {
    if (i === message.length || (i === 9 && message[i] > 1)) return undefined;
    n |= BigInt(message[i] & 127) << BigInt(7 * i);
    if (message[i] < 128) return n <= BigInt(message.length - i - 1) ? message.subarray(i + 1, i + 1 + Number(n)) : undefined;
  }
  return undefined;
}
const masked = (bytes, sentinel) => Uint8Array.from(bytes, (it) => it ^ sentinel);

export const load = async () => {};
export class Receiver {
  constructor(limit, { sentinel = 0, plain = false } = {}) { Object.assign(this, { limit, sentinel, plain, stretch: [], past: false }); }
  push(bytes) {
    const events = [];
    bytes.forEach((byte, end) => {
      if (byte !== this.sentinel) {
        if (this.past) return;
        if (this.stretch.length === this.limit) {
          events.push({ kind: "tooLong", end, length: this.limit });
          this.past = true;
        } else this.stretch.push(byte);
        return;
      }
      const { length } = this.stretch;
      if (length && !this.past) {
        const message = messageOf(masked(this.stretch, this.sentinel)), held = message && (this.plain ? message : countedOf(message));
        events.push(held ? { kind: "message", bytes: held, end, length } : { kind: "damaged", end, length });
      }
      this.stretch = [];
      this.past = false;
    });
    return events;
  }
  get begun() { return this.past ? 0 : this.stretch.length; }
  finish() {
    const length = this.begun;
    this.stretch = [];
    this.past = false;
    return length ? { kind: "cut", length } : undefined;
  }
}
export class Sender {
  constructor({ sentinel = 0, plain = false } = {}) { Object.assign(this, { sentinel, plain, clean: false }); }
  send(message) {
    const whole = this.plain ? message : Uint8Array.from([...countOf(message.length), ...message]), { sentinel } = this;
    const out = Uint8Array.from([...(this.clean ? [] : [sentinel]), ...masked(frameOf(whole), sentinel), sentinel]);
    this.clean = false;
    return out;
  }
  sent() { this.clean = true; }
}
