// Jilqamur for JavaScript, over the library as a WebAssembly module. The module's calls are proved; how they were
// compiled, and what this package does between them and JavaScript, is tested.

import { CODES, FAULTS, MAX_HELD, MIN_HELD, STRUCTS, VERSION } from "./abi.mjs";
import { End } from "./ends.mjs";
import { done, Locked, Memory, Refused, sequence, within } from "./memory.mjs";
import { Depacketizer, Forwarder, NackRequester, PacketHistory, Packetizer, Receiver, Sender, Window }
  from "./streams.mjs";

export { CODES, Depacketizer, End, Forwarder, Locked, MAX_HELD, MIN_HELD, NackRequester, PacketHistory, Packetizer,
  Receiver, Refused, Sender, VERSION, Window };

// The names of section and stream that a datagram carries, by the fields of their struct.
const NAMES = { mid: "mid", rid: "rid", repairedRid: "repaired_rid" };

/** The module: that beside this file, or what is given (a URL, bytes, a response or a compiled module). */
async function compiled(source) {
  if (source instanceof WebAssembly.Module) return source;
  if (source instanceof ArrayBuffer || ArrayBuffer.isView(source)) return WebAssembly.compile(source);
  if (typeof Response !== "undefined"
    && source instanceof Response) return WebAssembly.compile(await source.arrayBuffer());
  const url = source === undefined ? new URL("./jilqamur.wasm", import.meta.url) : new URL(source,
    globalThis.location?.href);
  if (url.protocol === "file:") {
    const { readFile } = await import("node:fs/promises");
    return WebAssembly.compile(await readFile(url));
  }
  const response = await fetch(url);
  if (!response.ok) throw new Error(`${url}: ${response.status}`);
  return WebAssembly.compile(await response.arrayBuffer());
}

/** Loads the library: each call of it makes one with a memory of its own. */
export async function load(source) {
  return new Jilqamur(new Memory(await WebAssembly.instantiate(await compiled(source))));
}

export class Jilqamur {
  #memory;

  constructor(memory) {
    this.#memory = memory;
  }

  get memoryBytes() {
    return this.#memory.size;
  }

  get isLocked() {
    return this.#memory.isLocked;
  }

  end(options) {
    return new End(this.#memory, options);
  }

  window() {
    return new Window(this.#memory);
  }

  packetizer(options) {
    return new Packetizer(this.#memory, options);
  }

  depacketizer(options) {
    return new Depacketizer(this.#memory, options);
  }

  sender(options) {
    return new Sender(this.#memory, options);
  }

  receiver(options) {
    return new Receiver(this.#memory, options);
  }

  forwarder(first) {
    return new Forwarder(this.#memory, first);
  }

  history(bounds) {
    return new PacketHistory(this.#memory, bounds);
  }

  requester(bounds) {
    return new NackRequester(this.#memory, bounds);
  }

  /** The header in front of a datagram; undefined if there is none. */
  readHeader(datagram) {
    const memory = this.#memory;
    memory.begin();
    const at = memory.struct("header"), code = memory.call.header_read(...memory.bytes(datagram, "datagram"), at);
    if (code === CODES.UNREADABLE) return undefined;
    done(code);
    const { csrcCount, ...told } = memory.told("header", at), [first] = STRUCTS.header.fields.csrc;
    return { ...told, csrc: Array.from({ length: csrcCount }, (_, index) => memory.u32(at + first + 4 * index)) };
  }

  /** The bytes of a header. */
  writeHeader({ csrc = [], headerLen, ...fields }) {
    const memory = this.#memory;
    if (csrc.length > 15) throw new Refused(CODES.UNWRITABLE, `${csrc.length} contributing sources`);
    memory.begin();
    const at = memory.struct("header", { ...fields, csrcCount: csrc.length }), [first] = STRUCTS.header.fields.csrc;
    csrc.forEach((ssrc, index) => memory.view.setUint32(at + first + 4 * index, within(ssrc, "u32", "csrc"), true));
    return memory.fetched((to, len, needed) => memory.call.header_write(at, to, len, needed));
  }

  /** A payload without its padding. */
  unpad(hasPadding, payload) {
    const memory = this.#memory;
    memory.begin();
    const unpadded = memory.room(8);
    done(memory.call.payload_unpad(hasPadding ? 1 : 0, ...memory.bytes(payload, "payload"), unpadded));
    return payload.subarray(0, memory.u64(unpadded));
  }

  /** What a packet says of its frame. */
  payloadInfo(codec, payload, marker) {
    const memory = this.#memory;
    memory.begin();
    const at = memory.struct("packet_info");
    done(memory.call.payload_info(...memory.text(codec, "codec"), ...memory.bytes(payload, "payload"), marker ? 1 : 0,
      at),
      `codec ${codec}`);
    return memory.told("packet_info", at);
  }

  /** The values and names that a datagram carries, by the ids of extensions; undefined if it has no header. */
  headerValues(datagram, ids) {
    const memory = this.#memory;
    memory.begin();
    const values = memory.struct("values"), names = memory.struct("names"), fields = STRUCTS.names.fields;
    const code = memory.call.header_values(...memory.bytes(datagram, "datagram"), memory.struct("extension_ids", ids),
      values, names);
    if (code === CODES.UNREADABLE) return undefined;
    done(code);
    const told = {};
    for (const [name, field] of Object.entries(NAMES)) {
      if (!memory.u8[names + fields[`has_${field}`][0]]) continue;
      const at = names + fields[field][0];
      told[name] = memory.decoded(memory.u8.slice(at, at + memory.u8[names + fields[`${field}_len`][0]]));
    }
    return { values: memory.told("values", values), names: told };
  }

  /** The line at which a session text can't be read on; undefined if it is read to its end. */
  faultyLine(text) {
    const memory = this.#memory;
    memory.begin();
    const number = memory.room(8), fault = memory.room(4), given = memory.text(text, "text");
    const line = memory.fetched((at, len, needed) => memory.call.faulty_line(...given, at, len, needed, number, fault));
    if (!line) return undefined;
    const [name, words] = FAULTS[memory.u32(fault)];
    return { line: memory.decoded(line), number: memory.u64(number), fault: name, words };
  }

  /** The number nearest to the previous one with these low 16 bits, modulo 2^64. */
  widen(previous, low) {
    return BigInt.asUintN(64, this.#memory.call.number_widen(sequence(previous, "previous"), within(low, "u16",
      "low")));
  }
}
