// The module's memory as JavaScript sees it: places are numbers, what needs 64 bits is a bigint only where it is given
// to
// a call. Each call's arguments live in a piece of scratch memory until the next call begins.

import { BIG, CALLS, CODES, STRUCTS, TEXTS, VERSION_NUMBER } from "./abi.mjs";

const NAMES = Object.keys(CODES);
const SCRATCH = 1 << 16;
const RANGES = { u8: [0, 0xff], i8: [-128, 127], u16: [0, 0xffff], u32: [0, 0xffffffff], size: [0, 0x7fffffff] };
const encoder = new TextEncoder();
const decoder = new TextDecoder("utf-8", { ignoreBOM: true });

/** A call that was refused: its code, that code's name, and what it was about, as far as the package can tell. */
export class Refused extends Error {
  constructor(code, place) {
    super((TEXTS[code] ?? "no such answer") + (place ? `: ${place}` : ""));
    this.name = "Refused";
    this.code = code;
    this.answer = NAMES[code];
    this.place = place;
  }
}

/** The module ended within a call, and takes no further one: what it held is lost. */
export class Locked extends Error {
  constructor(cause) {
    super("the module ended within a call, and takes no further one", { cause });
    this.name = "Locked";
  }
}

export function done(code, place) {
  if (code !== CODES.OK) throw new Refused(code, place);
}

const camel = (name) => name.replace(/_(.)/g, (_, letter) => letter.toUpperCase());

// The fields of each struct that are single: where, of which kind, under which name, and the flag that says that it is
// given.
const FIELDS = Object.fromEntries(Object.entries(STRUCTS).map(([struct, { fields }]) => [struct, Object.entries(fields)
  .filter(([name, [, , count]]) => !count && !(name.startsWith("has_") && name.slice(4) in fields))
  .map(([name, [at, kind]]) => ({ at, kind, name: camel(name), big: BIG.has(name),
    has: fields[`has_${name}`]?.[0] }))]));

/** A number in its range, else a RangeError that names it. */
export function within(value, kind, name) {
  const [least, most] = RANGES[kind];
  if (!Number.isInteger(value) || value < least || value > most)
    throw new RangeError(`${name} is ${String(value)}, and not an integer from ${least} to ${most}`);
  return value;
}

/** A number or a bigint as a word of 64 bits. */
export function word(value, name) {
  if (typeof value === "bigint" ? value >= 0n && value >> 64n === 0n : Number.isSafeInteger(value) && value >= 0)
    return BigInt(value);
  throw new RangeError(`${name} is ${String(value)}, and not an integer from 0 to 2^64 - 1 (from 2^53 on a bigint)`);
}

/** A sequence number, modulo 2^64: those from 2^63 on are negative as numbers, as -1 before 0. */
export function sequence(value, name) {
  return Number.isSafeInteger(value) && value < 0 ? BigInt.asUintN(64, BigInt(value)) : word(value, name);
}

function signed(value, name) {
  const it = typeof value === "bigint" || Number.isSafeInteger(value) ? BigInt(value) : undefined;
  if (it === undefined || BigInt.asIntN(64, it) !== it) throw new RangeError(`${name} is no integer of 64 bits`);
  return it;
}

export class Memory {
  #x; #u8; #view; #base; #cursor = 0; #more = []; #trap;

  constructor(instance) {
    this.#x = instance.exports;
    this.call = {};
    for (const name of CALLS) {
      const call = this.#x[name];
      if (!call) throw new Error(`the module has no call ${name}`);
      this.call[name] = this.#guarded(call);
    }
    if (this.call.version() !== VERSION_NUMBER) throw new Error("the module is of another version than its package");
    this.get = this.#guarded(this.#x.get);
    this.put = this.#guarded(this.#x.put);
    this.#base = this.taken(SCRATCH);
  }

  /** The same call, but that a trap within it locks the module: its memory can't be trusted any more. */
  #guarded(call) {
    return (...words) => {
      if (this.#trap) throw new Locked(this.#trap);
      try {
        return call(...words);
      } catch (trap) {
        this.#trap = trap;
        throw new Locked(trap);
      }
    };
  }

  get isLocked() {
    return this.#trap !== undefined;
  }

  get size() {
    return this.#x.memory.buffer.byteLength;
  }

  /** A view of the memory, which is dead once that has grown. */
  get u8() {
    if (this.#u8?.buffer !== this.#x.memory.buffer) this.#u8 = new Uint8Array(this.#x.memory.buffer);
    return this.#u8;
  }

  get view() {
    if (this.#view?.buffer !== this.#x.memory.buffer) this.#view = new DataView(this.#x.memory.buffer);
    return this.#view;
  }

  /** Memory that is kept until it is put back. */
  taken(size) {
    const at = this.get(size);
    if (at === 0) throw new Refused(CODES.MEMORY);
    return at >>> 0;
  }

  /** Begins a call: what the last one was given room for is free again. */
  begin() {
    this.#cursor = 0;
    while (this.#more.length) this.put(this.#more.pop());
  }

  /** Room for so many bytes until the next begin. */
  room(size) {
    const at = this.#cursor;
    if (at + size <= SCRATCH) {
      this.#cursor = (at + size + 15) & ~15;
      return this.#base + at;
    }
    const more = this.taken(size);
    this.#more.push(more);
    return more;
  }

  /** Place and length of bytes or a text. */
  bytes(given, name = "bytes") {
    if (given === "") return [this.#base, 0];
    const it = typeof given === "string" ? encoder.encode(given) : given;
    if (!(it instanceof Uint8Array)) throw new TypeError(`${name} is no Uint8Array`);
    const at = this.room(Math.max(it.length, 1));
    this.u8.set(it, at);
    return [at, it.length];
  }

  /** A text; lone surrogates are refused, which would be written as another sign. */
  text(given, name) {
    if (typeof given !== "string") throw new TypeError(`${name} is no text`);
    if (given.isWellFormed ? !given.isWellFormed()
      : /[\ud800-\udbff](?![\udc00-\udfff])|(?<![\ud800-\udbff])[\udc00-\udfff]/.test(given))
      throw new TypeError(`${name} has a lone surrogate`);
    return this.bytes(given, name);
  }

  /** Place and count of numbers of 32 bits. */
  numbers(given, name) {
    const at = this.room(Math.max(4 * given.length, 4));
    given.forEach((number, index) => this.view.setUint32(at + 4 * index, within(number, "u32", name), true));
    return [at, given.length];
  }

  /** Room for a struct, whose bytes are 0 but for what is told. */
  struct(name, told) {
    const { size } = STRUCTS[name];
    const at = this.room(size);
    this.u8.fill(0, at, at + size);
    if (told) this.fill(name, at, told);
    return at;
  }

  fill(name, at, told) {
    for (const field of FIELDS[name]) {
      const value = told[field.name];
      if (value === undefined || value === null) continue;
      if (field.has !== undefined) this.view.setUint8(at + field.has, 1);
      this.#set(field.kind, at + field.at, value, field.name);
    }
  }

  #set(kind, at, value, name) {
    const view = this.view;
    if (kind === "bool") view.setUint8(at, value ? 1 : 0);
    else if (kind === "i64") view.setBigInt64(at, signed(value, name), true);
    else if (kind === "u64" || kind === "size") view.setBigUint64(at, word(value, name), true);
    else {
      within(value, kind, name);
      if (kind === "u8") view.setUint8(at, value);
      else if (kind === "i8") view.setInt8(at, value);
      else if (kind === "u16") view.setUint16(at, value, true);
      else view.setUint32(at, value, true);
    }
  }

  /** What a struct tells; fields that aren't given are left out. */
  told(name, at) {
    const view = this.view, told = {};
    for (const { at: place, kind, name: field, big, has } of FIELDS[name]) {
      if (has !== undefined && view.getUint8(at + has) === 0) continue;
      const here = at + place;
      told[field] = kind === "bool" ? view.getUint8(here) === 1 : kind === "u8" ? view.getUint8(here)
        : kind === "i8" ? view.getInt8(here) : kind === "u16" ? view.getUint16(here, true)
        : kind === "u32" ? view.getUint32(here, true) : kind === "i64" ? view.getBigInt64(here, true)
        : big ? view.getBigUint64(here, true) : this.u64(here);
    }
    return told;
  }

  /**
   * A size or a sequence number. That is one modulo 2^64, and what comes before 0, as a first packet of number 65535
   * may,
   * is negative here. No peer brings a stream 2^53 on, but a caller can begin there by a bigint.
   */
  u64(at) {
    const value = this.view.getInt32(at + 4, true) * 0x1_0000_0000 + this.view.getUint32(at, true);
    if (!Number.isSafeInteger(value)) throw new RangeError("a number that JavaScript's numbers don't have whole");
    return value;
  }

  u32(at) {
    return this.view.getUint32(at, true);
  }

  /**
   * What a call copies into a buffer; undefined where there is nothing. `call` is given the place, the length and the
   * place of the needed length.
   */
  fetched(call, place) {
    let len = 4096;
    for (; ;) {
      const needed = this.room(8), at = this.room(len), code = call(at, len, needed);
      if (code === CODES.OK) return this.u8.slice(at, at + this.u64(needed));
      if (code === CODES.NOTHING) return undefined;
      if (code !== CODES.TOO_SMALL) throw new Refused(code, place);
      len = this.u64(needed);
    }
  }

  decoded(bytes) {
    return decoder.decode(bytes);
  }
}

// Frees what a value held that nothing refers to any more.
const left = new FinalizationRegistry(({ memory, at, close }) => {
  if (memory.isLocked) return;
  memory.call[close](at);
  memory.put(at);
});

/** A value of the library: `kind` names its struct and its calls. Closed ones refuse each call (CLOSED). */
export class Handle {
  #memory; #at; #kind;

  constructor(memory, kind) {
    this.#memory = memory;
    this.#kind = kind;
    this.#at = memory.taken(STRUCTS[kind].size);
    memory.u8.fill(0, this.#at, this.#at + STRUCTS[kind].size);
    left.register(this, { memory, at: this.#at, close: `${kind}_close` }, this);
  }

  /** The place of the handle. */
  get at() {
    if (this.#at === 0) throw new Refused(CODES.CLOSED, this.#kind);
    return this.#at;
  }

  get memory() {
    return this.#memory;
  }

  get isOpen() {
    return this.#at !== 0;
  }

  /** Frees all that it holds; a second time does nothing. */
  close() {
    if (this.#at === 0) return;
    const at = this.#at;
    this.#at = 0;
    left.unregister(this);
    this.#memory.call[`${this.#kind}_close`](at);
    this.#memory.put(at);
  }

  [Symbol.dispose ?? Symbol.for("Symbol.dispose")]() {
    if (!this.#memory.isLocked) this.close();
  }
}
