// Values without an end: packetizers and depacketizers, sending and receiving streams by a codec's name, forwarders,
// histories and requesters of generic NACKs, and replay windows.

import { CODES, MIN_HELD } from "./abi.mjs";
import { datagramsOf, missingOf, polled, unitOf, unitsOf } from "./fetching.mjs";
import { done, Handle, Refused, sequence, within, word } from "./memory.mjs";

// Opens a handle by a call that may refuse, and closes none that isn't open.
function opened(handle, code, place) {
  if (code !== CODES.OK) handle.close();
  done(code, place);
}

function format_(memory, { clockRate, octetAlign, maxDonDiff }) {
  return memory.struct("format", { clockRate, octetAlign, maxDonDiff });
}

/** A replay window: which numbers of a stream came. */
export class Window extends Handle {
  constructor(memory) {
    super(memory, "window");
    opened(this, memory.call.window_open(this.at));
  }

  /** The widened number of a datagram that is new, or { verdict }. */
  receive(datagram) {
    const memory = this.memory;
    memory.begin();
    const [bytes, len] = memory.bytes(datagram, "datagram"), number = memory.room(8);
    const code = memory.call.window_receive(this.at, bytes, len, number);
    if (code === CODES.UNREADABLE) return { verdict: "UNREADABLE" };
    if (code === CODES.REFUSED) return { verdict: "REFUSED" };
    done(code);
    return { number: memory.u64(number) };
  }
}

/** Cuts samples of a codec into payloads. */
export class Packetizer extends Handle {
  constructor(memory, { codec, pictureId, forBrowsers = false, ...format }) {
    super(memory, "packetizer");
    memory.begin();
    opened(this, memory.call.packetizer_open(this.at, memory.struct("packetizer_params", { pictureId, forBrowsers }),
      format_(memory, format), ...memory.text(codec, "codec")), `codec ${codec}`);
  }

  /** The payloads of a sample, of at most mtu bytes each, with the marker bits of their headers. */
  packetize(mtu, sample) {
    const memory = this.memory, call = memory.call;
    if (within(mtu, "size", "mtu") === 0) throw new Refused(CODES.OUT_OF_RANGE, "mtu 0");
    memory.begin();
    const count = memory.room(8);
    done(call.packetizer_packetize(this.at, mtu, ...memory.bytes(sample, "sample"), count));
    return Array.from({ length: memory.u64(count) }, (_, index) => {
      memory.begin();
      const marker = memory.room(1);
      const payload = memory.fetched((at, len, needed) => call.packetizer_packet(this.at, index, at, len, needed,
        marker));
      return { payload, marker: memory.u8[marker] === 1 };
    });
  }
}

/** Puts packets in order, and payloads together to units. */
export class Depacketizer extends Handle {
  constructor(memory, { codec, holdBack, held = MIN_HELD, ...format }) {
    super(memory, "depacketizer");
    memory.begin();
    opened(this, memory.call.depacketizer_open(this.at, format_(memory, format), ...memory.text(codec, "codec"),
      within(holdBack, "size", "holdBack"), within(held, "size", "held")), `codec ${codec}`);
  }

  push({ number, timestamp, marker, payload }) {
    const memory = this.memory;
    memory.begin();
    done(memory.call.depacketizer_push(this.at, sequence(number, "number"), within(timestamp, "u32", "timestamp"),
      marker ? 1 : 0, ...memory.bytes(payload, "payload")));
  }

  #unit(code) {
    return polled(code) ? unitOf(this.memory, (...words) => this.memory.call.depacketizer_unit(this.at, ...words))
      : undefined;
  }

  /** The next unit, if one is due. */
  pop() {
    return this.#unit(this.memory.call.depacketizer_pop(this.at));
  }

  drain() {
    return this.#unit(this.memory.call.depacketizer_drain(this.at));
  }

  units() {
    return unitsOf(() => this.pop());
  }
}

/** A sending stream by a codec's name. */
export class Sender extends Handle {
  constructor(memory, { codec, clockRate, octetAlign, maxDonDiff, ...params }) {
    super(memory, "sender");
    memory.begin();
    const told = { first: 0, mtu: 1200, limit: 1400, forBrowsers: false, ...params };
    opened(this, memory.call.sender_open(this.at, memory.struct("sender_params", told),
      format_(memory, { clockRate, octetAlign, maxDonDiff }), ...memory.text(codec, "codec")), `codec ${codec}`);
  }

  /** The datagrams of a sample at a time in ticks of the clock rate. */
  pushSample(ticks, sample) {
    const memory = this.memory;
    memory.begin();
    const count = memory.room(8);
    done(memory.call.sender_push_sample(this.at, word(ticks, "ticks"), ...memory.bytes(sample, "sample"), count));
    return datagramsOf(memory, memory.u64(count), (...words) => memory.call.sender_datagram(this.at, ...words));
  }
}

/** A receiving stream by a codec's name. */
export class Receiver extends Handle {
  constructor(memory, { codec, holdBack, held = MIN_HELD, ...format }) {
    super(memory, "receiver");
    memory.begin();
    opened(this, memory.call.receiver_open(this.at, format_(memory, format), ...memory.text(codec, "codec"),
      within(holdBack, "size", "holdBack"), within(held, "size", "held")), `codec ${codec}`);
  }

  /**
   * Takes a packet, by its header and its payload without padding: its widened number, or undefined if it is
   * refused.
   */
  push({ sequenceNumber, timestamp, marker, payload }) {
    const memory = this.memory;
    memory.begin();
    const number = memory.room(8);
    const code = memory.call.receiver_push(this.at, within(sequenceNumber, "u16", "sequenceNumber"),
      within(timestamp, "u32", "timestamp"), marker ? 1 : 0, ...memory.bytes(payload, "payload"), number);
    if (code === CODES.REFUSED) return undefined;
    done(code);
    return memory.u64(number);
  }

  #unit(code) {
    return polled(code) ? unitOf(this.memory, (...words) => this.memory.call.receiver_unit(this.at, ...words))
      : undefined;
  }

  poll() {
    return this.#unit(this.memory.call.receiver_poll(this.at));
  }

  drain() {
    return this.#unit(this.memory.call.receiver_drain(this.at));
  }

  units() {
    return unitsOf(() => this.poll());
  }

  missing() {
    return missingOf(this.memory, (...words) => this.memory.call.receiver_missing(this.at, ...words));
  }

  passTo(number) {
    done(this.memory.call.receiver_pass_to(this.at, sequence(number, "number")));
  }

  keepWithin(bytes) {
    done(this.memory.call.receiver_keep_within(this.at, within(bytes, "size", "bytes")));
  }
}

/** Keeps the datagrams that a stream sent last, by number, to be sent again when a generic NACK asks for them. */
export class PacketHistory extends Handle {
  constructor(memory, { most, mostBytes }) {
    super(memory, "history");
    opened(this, memory.call.history_open(this.at, within(most, "u32", "most"), within(mostBytes, "u32", "mostBytes")));
  }

  /** Keeps a copy of a datagram under its number; of more than fit the lowest numbers go. */
  keep(number, datagram) {
    const memory = this.memory;
    memory.begin();
    done(memory.call.history_keep(this.at, sequence(number, "number"), ...memory.bytes(datagram, "datagram")));
  }

  /** The datagram that a NACK asks for by the low 16 bits of its number; undefined if it isn't held. */
  asked(low) {
    const memory = this.memory;
    memory.begin();
    return memory.fetched((...words) => memory.call.history_asked(this.at, within(low, "u16", "low"), ...words));
  }
}

/** Says what a receiver asks for by generic NACKs: each missing number at most so often, a round trip apart. */
export class NackRequester extends Handle {
  constructor(memory, { most, delay }) {
    super(memory, "requester");
    opened(this, memory.call.requester_open(this.at, within(most, "u32", "most"), word(delay, "delay")));
  }

  /** The numbers to ask for now, of those that are missing now; times are ticks of the caller's clock. */
  ask(missing, now, roundTrip) {
    const memory = this.memory, count = missing.length;
    memory.begin();
    const given = memory.room(8 * count), to = memory.room(8 * count), needed = memory.room(8);
    missing.forEach((number, index) => memory.view.setBigUint64(given + 8 * index, sequence(number, "missing"), true));
    done(memory.call.requester_ask(this.at, given, count, word(now, "now"), word(roundTrip, "roundTrip"), to, count,
      needed));
    return Array.from({ length: memory.u64(needed) }, (_, index) => memory.u64(to + 8 * index));
  }
}

/** Numbers and times the packets of several sources as those of one stream. */
export class Forwarder extends Handle {
  constructor(memory, first = 0) {
    super(memory, "forwarder");
    opened(this, memory.call.forwarder_open(this.at, word(first, "first")));
  }

  /** Goes over to a source, from its packet of this number and timestamp on, which gets the timestamp `at`. */
  switch({ source, number, timestamp, at }) {
    done(this.memory.call.forwarder_switch(this.at, word(source, "source"), sequence(number, "number"),
      within(timestamp, "u32", "timestamp"), within(at, "u32", "at")));
  }

  skipTo(number) {
    done(this.memory.call.forwarder_skip_to(this.at, sequence(number, "number")));
  }

  endAt(number) {
    done(this.memory.call.forwarder_end_at(this.at, sequence(number, "number")));
  }

  #placed(call, { source, number, timestamp }, ...words) {
    const memory = this.memory;
    memory.begin();
    const placed = memory.struct("placed");
    const code = memory.call[call](this.at, word(source, "source"), sequence(number, "number"),
      within(timestamp, "u32", "timestamp"), ...words, placed);
    return polled(code) ? memory.told("placed", placed) : undefined;
  }

  /** Under which number and timestamp a packet is sent on; undefined if it isn't. */
  place(packet) {
    return this.#placed("forwarder_place", packet);
  }

  /** The same, and the number is given; `ends` says whether the packet is the last of its frame. */
  forward(packet, ends) {
    return this.#placed("forwarder_forward", packet, ends ? 1 : 0);
  }

  /** Whether a packet that carries nothing was the next one, and is left out. */
  passEmpty(source, number) {
    return polled(this.memory.call.forwarder_pass_empty(this.at, word(source, "source"), sequence(number, "number")));
  }

  /** The first number above all those that were given. */
  next() {
    this.memory.begin();
    const next = this.memory.room(8);
    done(this.memory.call.forwarder_next(this.at, next));
    return this.memory.u64(next);
  }
}
