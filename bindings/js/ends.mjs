// An end of a session: what it exchanges (exchanges.mjs), and the streams that were agreed on.

import { CODES, MIN_HELD } from "./abi.mjs";
import { Exchanges, mid_ } from "./exchanges.mjs";
import { datagramsOf, missingOf, polled, unitOf, unitsOf } from "./fetching.mjs";
import { done, sequence, within, word } from "./memory.mjs";

const NAMES = Object.keys(CODES);
const VERDICTS = new Set([CODES.UNREADABLE, CODES.FOREIGN, CODES.DAMAGED, CODES.REFUSED]);

export class End extends Exchanges {
  /** Opens a sending stream for an agreed row, and returns its number. */
  openSender({ mid, ssrc, payloadType, first = 0, mtu = 1200, limit = 1400, distances, pictureId,
    forBrowsers = false }) {
    const memory = this.memory;
    memory.begin();
    const params = memory.struct("stream", { first, mtu, limit, hasRed: distances !== undefined, pictureId,
      forBrowsers });
    const stream = memory.room(8), back = (distances ?? []).map((it) => within(it, "u8", "distances"));
    done(this.memory.call.end_open_sender(this.at, ...memory.text(mid_(mid)), within(ssrc, "u32", "ssrc"),
      within(payloadType, "u8", "payloadType"), params, ...memory.bytes(Uint8Array.from(back)), stream),
      `section ${mid}, ssrc ${ssrc}, payload type ${payloadType}`);
    return memory.u64(stream);
  }

  #open(call, { mid, ssrc, payloadType, holdBack, held = MIN_HELD }) {
    const memory = this.memory;
    memory.begin();
    const stream = memory.room(8);
    done(this.memory.call[call](this.at, ...memory.text(mid_(mid)), within(ssrc, "u32", "ssrc"),
      within(payloadType, "u8", "payloadType"), within(holdBack, "size", "holdBack"), within(held, "size", "held"),
        stream),
      `section ${mid}, ssrc ${ssrc}, payload type ${payloadType}`);
    return memory.u64(stream);
  }

  /** Opens a receiving stream for an agreed row, and returns its number. */
  openReceiver(options) {
    return this.#open("end_open_receiver", options);
  }

  /** The same in a section whose sender names this SSRC, or none at all. */
  openUnsignalled(options) {
    return this.#open("end_open_unsignalled", options);
  }

  // A call about a stream.
  #stream(call, stream, ...words) {
    done(this.memory.call[call](this.at, within(stream, "size", "stream"), ...words), `stream ${stream}`);
  }

  #sent(count) {
    return datagramsOf(this.memory, count, (...words) => this.memory.call.end_datagram(this.at, ...words));
  }

  /** The datagrams of a sample at a time in ticks of the row's clock. */
  pushSample(stream, ticks, sample, { values, mid = "" } = {}) {
    const memory = this.memory;
    memory.begin();
    const count = memory.room(8);
    this.#stream("end_push_sample", stream, word(ticks, "ticks"), memory.struct("values", values),
      ...memory.text(mid_(mid)), ...memory.bytes(sample, "sample"), count);
    return this.#sent(memory.u64(count));
  }

  /** A datagram that the stream sent, sent again as its repair. */
  repair(stream, datagram) {
    this.memory.begin();
    this.#stream("end_repair", stream, ...this.memory.bytes(datagram, "datagram"));
    return this.#sent(1)[0];
  }

  /** One packet of another stream as a datagram of this one. */
  sendPacket(stream, { number, timestamp, marker, payload, values, mid = "" }) {
    const memory = this.memory;
    memory.begin();
    this.#stream("end_send_packet", stream, sequence(number, "number"), within(timestamp, "u32", "timestamp"), marker
      ? 1 : 0,
      memory.struct("values", values), ...memory.text(mid_(mid)), ...memory.bytes(payload, "payload"));
    return this.#sent(1)[0];
  }

  /** Takes a datagram, and says which stream took it under which number, or what it is: { verdict }. */
  receive(datagram) {
    const memory = this.memory;
    memory.begin();
    const [bytes, len] = memory.bytes(datagram, "datagram"), told = memory.room(16);
    const code = memory.call.end_receive(this.at, bytes, len, told, told + 8);
    if (VERDICTS.has(code)) return { verdict: NAMES[code] };
    done(code);
    return { stream: memory.u64(told), number: memory.u64(told + 8) };
  }

  /** How a datagram would arrive, without taking it: the stream, its header's fields, its payload, and its values. */
  arrival(datagram) {
    const memory = this.memory;
    memory.begin();
    const [bytes, len] = memory.bytes(datagram, "datagram"), stream = memory.room(8);
    const at = memory.struct("arrival"), values = memory.struct("values");
    const code = memory.call.end_arrival(this.at, bytes, len, stream, at, values);
    if (VERDICTS.has(code)) return { verdict: NAMES[code] };
    done(code);
    const { start, end, ...told } = memory.told("arrival", at);
    return { stream: memory.u64(stream), ...told, payload: datagram.slice(start, end), values: memory.told("values",
      values) };
  }

  /** Takes only the number of a datagram that arrived; undefined if it came before, or too late. */
  takeNumber(stream, low) {
    const memory = this.memory;
    memory.begin();
    const number = memory.room(8);
    const code = memory.call.end_take_number(this.at, within(stream, "size", "stream"), within(low, "u16", "low"),
      number);
    if (code === CODES.REFUSED) return undefined;
    done(code, `stream ${stream}`);
    return memory.u64(number);
  }

  #unit(call, stream) {
    const code = this.memory.call[call](this.at, within(stream, "size", "stream"));
    if (!polled(code, `stream ${stream}`)) return undefined;
    return unitOf(this.memory, (...words) => this.memory.call.end_unit(this.at, ...words));
  }

  /** The next unit of a receiving stream, if one is ready. */
  poll(stream) {
    return this.#unit("end_poll", stream);
  }

  /** The same, even if a datagram before the first complete unit is missing: for the end of a stream. */
  drain(stream) {
    return this.#unit("end_drain", stream);
  }

  /** All units that are ready; frames that the codec can't read are passed over. */
  units(stream) {
    return unitsOf(() => this.poll(stream));
  }

  /** The values of the header extensions of the last unit's last datagram; undefined before the first unit. */
  values() {
    const memory = this.memory;
    memory.begin();
    const at = memory.struct("values");
    return polled(memory.call.end_values(this.at, at)) ? memory.told("values", at) : undefined;
  }

  /** The missing numbers of a receiving stream, in increasing order: what a generic NACK may ask for. */
  missing(stream) {
    within(stream, "size", "stream");
    return missingOf(this.memory, (...words) => this.memory.call.end_missing(this.at, stream, ...words),
      `stream ${stream}`);
  }

  /** Whether a datagram of this number is of no use any more. */
  isPassed(stream, number) {
    return polled(this.memory.call.end_is_passed(this.at, within(stream, "size", "stream"), sequence(number, "number")),
      `stream ${stream}`);
  }

  /** Passes all numbers up to this one. */
  passTo(stream, number) {
    this.#stream("end_pass_to", stream, sequence(number, "number"));
  }

  /** Whether a number that carries nothing was the next one, and is passed. */
  passEmpty(stream, number) {
    return polled(this.memory.call.end_pass_empty(this.at, within(stream, "size", "stream"), sequence(number,
      "number")),
      `stream ${stream}`);
  }

  /** Keeps of the packets that wait the newest, of so many bytes together. */
  keepWithin(stream, bytes) {
    this.#stream("end_keep_within", stream, within(bytes, "size", "bytes"));
  }

  /** The number of the next datagram of a sending stream's samples. */
  nextNumber(stream) {
    this.memory.begin();
    const next = this.memory.room(8);
    this.#stream("end_next_number", stream, next);
    return this.memory.u64(next);
  }

  /** Leaves the numbers up to this one out. */
  skipTo(stream, number) {
    this.#stream("end_skip_to", stream, sequence(number, "number"));
  }

  closeSender(stream) {
    this.#stream("end_close_sender", stream);
  }

  closeReceiver(stream) {
    this.#stream("end_close_receiver", stream);
  }
}
