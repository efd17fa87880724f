// frames.mjs in headless Chromium: what Node does with the same bytes.
import assert from "node:assert";
import { Browser, serve } from "./browser.mjs";

const server = await serve(), browser = await Browser.start();
try {
  await browser.open(`${server.url}page/`);
  const found = await browser.run(`(async () => {
    const [frames, oracle] = [await import("/frames.mjs"), await import("/tests/oracle.mjs")];
    await frames.load();
    let seed = 1, rounds = 0, events = 0;
    const some = (n) => { seed = (seed * 1103515245 + 12345) & 0x7fffffff; return (seed >> 8) % n; };
    const same = (a, b) => { if (JSON.stringify(a) !== JSON.stringify(b)) throw new Error("differs: " + JSON.stringify(a) + " " + JSON.stringify(b)); };
    for (; rounds < 100; rounds++) {
      const options = { sentinel: [0, 10, 255][some(3)], plain: some(2) === 1 }, sender = new frames.Sender(options), other = new oracle.Sender(options), line = [];
      for (let k = some(6); k > 0; k--) {
        const m = Uint8Array.from({ length: [0, 1, 30, 127, 254, 600][some(6)] }, () => some(3) ? some(256) : 0), out = sender.send(m);
        same([...out], [...other.send(m)]);
        if (some(3)) { sender.sent(); other.sent(); line.push(...out); } else line.push(...out.subarray(0, some(out.length)));
      }
      const wanted = new oracle.Receiver(700, options), all = wanted.push(Uint8Array.from(line)), cut = wanted.finish();
      if (cut) all.push(cut);
      const source = new ReadableStream({ start(to) { for (let at = 0; at < line.length; ) to.enqueue(Uint8Array.from(line.slice(at, at += 1 + some(90)))); to.close(); } });
      const kinds = [];
      for await (const it of frames.receive(source, 700, options)) kinds.push([it.kind, it.length, it.bytes && [...it.bytes]]);
      same(kinds, all.map((it) => [it.kind, it.length, it.bytes && [...it.bytes]]));
      events += kinds.length;
    }
    const piped = new Blob([Uint8Array.from([0, 4, 2, 104, 105, 0, 5, 1])]).stream().pipeThrough(frames.receiverStream(64)), reader = piped.getReader(), kinds = [];
    for (let it; !(it = await reader.read()).done; ) kinds.push(it.value.kind);
    same(kinds, ["message", "cut"]);
    return rounds + " streams, " + events + " events";
  })()`);
  const { product } = await browser.call("Browser.getVersion");
  assert.deepEqual(browser.thrown, []);
  console.log(`${product}: ${found}, as the oracle says`);
} finally {
  await browser.close();
  server.close();
}
