export type Bytes = Uint8Array | ArrayBufferView | ArrayBuffer;
export type Event =
  /**
   * `end` is where its delimiter is: among the pushed bytes, or in the stream that `receive` or `receiverStream` takes. `length` is how
   * many bytes came before that since the last one.
   */
  | { kind: "message"; bytes: Uint8Array; end: number; length: number }
  | { kind: "damaged"; end: number; length: number }
  /** `end` is the byte past the limit. */
  | { kind: "tooLong"; end: number; length: number }
  | { kind: "cut"; length: number };
export interface Options {
  /** The byte that ends frames: 0 if none is given. */
  sentinel?: number;
  /** Plain messages: if a send breaks off, a prefix of one may be received as a message that nobody sent. */
  plain?: boolean;
}
/** Compiles the module; once, before all else. `frames.wasm` beside the package's code if none is given. */
export function load(source?: Loaded | PromiseLike<Loaded>): Promise<void>;
type Loaded = URL | string | Response | BufferSource | WebAssembly.Module;
/** Receives the messages of a stream that comes in chunks, with at most `limit` bytes between two delimiters. */
export class Receiver {
  constructor(limit: number, options?: Options);
  /** The events of these bytes, in order. */
  push(bytes: Bytes): Exclude<Event, { kind: "cut" }>[];
  /** How many bytes have come since the last delimiter; 0 after `tooLong`. */
  readonly begun: number;
  /** Ends the stream, and begins a new one. Returns the partial frame at its end, if there is one. */
  finish(): Extract<Event, { kind: "cut" }> | undefined;
}
/** Makes the bytes to write for each message. */
export class Sender {
  constructor(options?: Options);
  /** The bytes to write. Call `sent` once all of them went out; if they didn't, call nothing: the next send then begins with a delimiter. */
  send(message: Bytes): Uint8Array;
  /** Says that all bytes of the last send went out. */
  sent(): void;
  /** Writes a message. If that fails, the next send begins with a delimiter. Of a Node stream: `Writable.toWeb(stream).getWriter()`. */
  write(writer: WritableStreamDefaultWriter<Uint8Array>, message: Bytes): Promise<void>;
}
/** The shortest frame of a message, without a delimiter; each byte XORed with the sentinel. */
export function encode(message: Bytes, options?: Pick<Options, "sentinel">): Uint8Array;
/** The message of one frame, with or without the delimiter that ends it. Throws a RangeError for all other bytes. */
export function decode(frame: Bytes, options?: Pick<Options, "sentinel">): Uint8Array;
/** The CRC-32 of bytes, as in Ethernet, gzip and PNG. */
export function crc32(bytes: Bytes): number;
/** A message with its CRC-32 appended, to be sent: `unseal` notices bytes that changed on the line. */
export function seal(message: Bytes): Uint8Array;
/** What was sealed; undefined if the last four bytes aren't the CRC-32 of those before them. */
export function unseal(message: Bytes): Uint8Array | undefined;
/** The events of a stream, as they come. `return()`, as `break` calls it, ends it, also while it waits. A `ReadableStream` is unlocked, and keeps what wasn't read. */
export function receive(
  source: ReadableStream<Bytes> | AsyncIterable<Bytes> | Iterable<Bytes>,
  /** Or a receiver of one's own, which keeps the frame that has begun; it has its own sentinel and form. */
  limit: number | Receiver,
  options?: Options & {
    /** Ends it, also while it waits: what is asked for then is rejected with the signal's reason. */
    signal?: AbortSignal;
  },
): AsyncGenerator<Event, void, void>;
/** The same as a stage of a pipe: `port.readable.pipeThrough(receiverStream(1024))`. */
export function receiverStream(limit: number | Receiver, options?: Options): TransformStream<Bytes, Event>;
