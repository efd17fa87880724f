// What frames.d.ts promises, as a user in TypeScript writes it: `tsc --strict` takes it, and each line under `@ts-expect-error` is refused.
import { crc32, decode, encode, Event, load, receive, Receiver, receiverStream, seal, Sender, unseal } from "../frames.mjs";

async function uses(port: { readable: ReadableStream<Uint8Array>; writable: WritableStream<Uint8Array> }): Promise<number> {
  await load();
  await load(new URL("https://example.org/frames.wasm"));
  const sender = new Sender({ sentinel: 10 }), writer = port.writable.getWriter();
  await sender.write(writer, seal(new Uint8Array([1, 2])));
  let damaged = 0;
  for await (const event of receive(port.readable, 1024, { plain: true, signal: new AbortController().signal })) {
    if (event.kind === "message") unseal(event.bytes)?.length.toFixed();
    else if (event.kind === "damaged") damaged += event.end - event.length;
    else if (event.kind === "cut") damaged += event.length;
  }
  for await (const event of receive([new Uint8Array(1)], new Receiver(8))) damaged += event.length;
  const stream: ReadableStream<Event> = port.readable.pipeThrough(receiverStream(64));
  const own: ReadableStream<Event> = port.readable.pipeThrough(receiverStream(new Receiver(64)));
  for await (const event of receive([new ArrayBuffer(1), new DataView(new ArrayBuffer(1))], 8)) damaged += event.length;
  const receiver = new Receiver(64), found = receiver.push(new ArrayBuffer(3)), cut = receiver.finish();
  return damaged + found.length + (cut ? cut.length : 0) + receiver.begun + crc32(decode(encode(new DataView(new ArrayBuffer(2))))) + (stream.locked || own.locked ? 1 : 0);
}
export function misuses(): void {
  // @ts-expect-error a limit is needed
  new Receiver();
  // @ts-expect-error options are an object
  new Receiver(8, 10);
  // @ts-expect-error no option is called so
  new Sender({ delimiter: 10 });
  // @ts-expect-error a text isn't bytes
  new Sender().send("text");
  // @ts-expect-error a frame has no form, counted or plain
  encode(new Uint8Array(1), { plain: true });
  // @ts-expect-error a source gives bytes one after another
  receive(new Uint8Array(1), 8);
  // @ts-expect-error nor does it give texts
  receive(["text"], 8);
  // @ts-expect-error a message that was damaged has no bytes
  for (const event of new Receiver(8).push(new Uint8Array(1))) if (event.kind === "damaged") event.bytes;
}
export { uses };
