// What an end exchanges: offers and answers, also with browsers, and what was agreed on.

import { CODES } from "./abi.mjs";
import { datagramsOf, polled } from "./fetching.mjs";
import { done, Handle, Refused, within, word } from "./memory.mjs";

const DIRECTIONS = { sendrecv: [1, 1], sendonly: [1, 0], recvonly: [0, 1], inactive: [0, 0] };
const SETUPS = ["actpass", "active", "passive"];

/** A mid that the library keeps as it is. */
export function mid_(mid) {
  if (typeof mid !== "string") throw new TypeError("mid is no text");
  if (!/^[A-Za-z0-9_]{0,16}$/.test(mid)) throw new Refused(CODES.MID_NOT_KEPT, `section ${JSON.stringify(mid)}`);
  return mid;
}

function direction_(direction) {
  if (!Object.hasOwn(DIRECTIONS, direction)) throw new TypeError(`no such direction: ${String(direction)}`);
  return DIRECTIONS[direction];
}

function ssrcs_(ssrcs = [], repairs = {}) {
  for (const ssrc of ssrcs) within(ssrc, "u32", "ssrcs");
  for (const pair of Object.entries(repairs)) for (const ssrc of pair) within(Number(ssrc), "u32", "repairs");
}

export class Exchanges extends Handle {
  #call;

  constructor(memory, { rows = [], extensions = {}, session = 0, defaultRows = false } = {}) {
    super(memory, "end");
    this.#call = memory.call;
    try {
      done(this.#call.end_open(this.at));
      rows.forEach((row, index) => this.#row(row, `row ${index} (${row.codec})`));
      if (defaultRows) done(this.#call.end_default_rows(this.at));
      for (const [uri, id] of Object.entries(extensions)) {
        memory.begin();
        done(this.#call.end_extension(this.at, within(id, "u8", "id"), ...memory.text(uri, "uri")), `extension ${uri}`);
      }
      done(this.#call.end_make(this.at, word(session, "session")));
    } catch (refused) {
      if (!memory.isLocked) this.close();
      throw refused;
    }
  }

  #row({ format = "", codec, ...row }, place) {
    const memory = this.memory;
    memory.begin();
    done(this.#call.end_row(this.at, memory.struct("row", row), ...memory.text(codec, "codec"),
      ...memory.text(format, "format")), place);
  }

  // Sections and requests are looked at before the first is put; if memory runs out within them, a text that can't be
  // read uses up what was put.
  #gathering(put) {
    try {
      put();
    } catch (refused) {
      if (refused instanceof Refused && refused.code === CODES.MEMORY) {
        this.#code("end_answer", "-");
        this.#code("end_answer_browser", "-");
      }
      throw refused;
    }
  }

  #repairs(repairs = {}) {
    for (const [ssrc, repair] of Object.entries(repairs)) done(this.#call.end_section_repair(this.at, Number(ssrc),
      repair));
  }

  #sections(sections) {
    for (const { mid, direction = "sendrecv", ssrcs, repairs } of sections) {
      mid_(mid);
      direction_(direction);
      ssrcs_(ssrcs, repairs);
    }
    this.#gathering(() => {
      for (const { mid, isVideo, direction = "sendrecv", ssrcs = [], repairs } of sections) {
        this.#repairs(repairs);
        this.memory.begin();
        done(this.#call.end_section(this.at, ...this.memory.text(mid), isVideo ? 1 : 0, ...DIRECTIONS[direction],
          ...this.memory.numbers(ssrcs, "ssrcs")), `section ${mid}`);
      }
    });
  }

  #requests(requests) {
    for (const request of requests) if (request) {
      direction_(request.direction ?? "sendrecv");
      ssrcs_(request.ssrcs, request.repairs);
    }
    this.#gathering(() => {
      for (const request of requests) {
        const { direction = "sendrecv", ssrcs = [], repairs } = request ?? { direction: "inactive" };
        this.#repairs(repairs);
        this.memory.begin();
        done(this.#call.end_request(this.at, request ? 1 : 0, ...DIRECTIONS[direction], ...this.memory.numbers(ssrcs,
          "ssrcs")));
      }
    });
  }

  #text() {
    this.memory.begin();
    return this.memory.decoded(this.memory.fetched((at, len, needed) => this.#call.end_text(this.at, at, len, needed)));
  }

  #code(call, text, name = "text") {
    this.memory.begin();
    return this.#call[call](this.at, ...this.memory.text(text, name));
  }

  /** The text of an offer of these sections, which is then pending. */
  offer(sections) {
    this.#sections(sections);
    done(this.#call.end_offer(this.at), "sections");
    return this.#text();
  }

  /** The text of the answer to an offer, with these sections. */
  answer(offer, sections) {
    this.#sections(sections);
    done(this.#code("end_answer", offer, "offer"), "sections");
    return this.#text();
  }

  accept(answer) {
    done(this.#code("end_accept", answer, "answer"));
  }

  /** Gives a pending offer up, and says whether there was one. */
  withdraw() {
    return polled(this.#call.end_withdraw(this.at));
  }

  /** The end's answer to a browser's offer, by a request for each section (null rejects it). */
  answerBrowser(offer, requests) {
    this.#requests(requests);
    done(this.#code("end_answer_browser", offer, "offer"), "sections");
    return this.#text();
  }

  acceptBrowser(answer) {
    done(this.#code("end_accept_browser", answer, "answer"));
  }

  /** Takes the types of the agreed sections from a text, each from the section of its name. */
  takeTypes(text) {
    done(this.#code("end_take_types", text));
  }

  /** An offer's or answer's text of this end, made one for a browser: with the lines of this transport. */
  forBrowser(own, { setup, ufrag, password, digest, hash = "sha-256", isLite = false }) {
    const memory = this.memory;
    if (!SETUPS.includes(setup)) throw new TypeError(`no such setup: ${String(setup)}`);
    memory.begin();
    done(this.#call.end_for_browser(this.at, ...memory.text(own, "own"), SETUPS.indexOf(setup), isLite ? 1 : 0,
      ...memory.text(ufrag, "ufrag"), ...memory.text(password, "password"), ...memory.text(hash, "hash"),
      ...memory.bytes(digest, "digest")), "transport");
    return this.#text();
  }

  /** What a browser's last text tells of its transport. */
  remote() {
    const memory = this.memory, call = this.#call;
    memory.begin();
    const at = memory.struct("remote");
    done(call.end_remote(this.at, at));
    const { setup, ownSetup, candidates, ...told } = memory.told("remote", at);
    const text = (which) => {
      memory.begin();
      const bytes = memory.fetched((to, len, needed) => call.end_remote_text(this.at, which, to, len, needed));
      return bytes && memory.decoded(bytes);
    };
    return {
      ...told, setup: SETUPS[setup], ownSetup: SETUPS[ownSetup], ufrag: text(0), password: text(1),
        fingerprint: text(2),
      candidates: datagramsOf(memory, candidates, (...words) => call.end_remote_candidate(this.at, ...words))
        .map((bytes) => memory.decoded(bytes)),
    };
  }

  /** The agreed sections, in the order of the texts. */
  agreed() {
    const found = [];
    for (let section; (section = this.#agreed(found.length)); ) found.push(section);
    return found;
  }

  #agreed(index) {
    const memory = this.memory, call = this.#call;
    memory.begin();
    const at = memory.struct("section");
    const mid = memory.fetched((to, len, needed) => call.end_agreed_section(this.at, index, to, len, needed, at));
    if (!mid) return undefined;
    const { rows, ssrcs, ...told } = memory.told("section", at);
    return {
      mid: memory.decoded(mid), ...told,
      rows: Array.from({ length: rows }, (_, row) => this.#agreedRow(index, row)),
      ssrcs: Array.from({ length: ssrcs }, (_, ssrc) => {
        memory.begin();
        const to = memory.room(8);
        done(call.end_agreed_ssrc(this.at, index, ssrc, to));
        return memory.u32(to);
      }),
    };
  }

  #agreedRow(section, index) {
    const memory = this.memory;
    memory.begin();
    const at = memory.struct("row");
    const codec = memory.fetched((to, len, needed) => this.#call.end_agreed_row(this.at, section, index, to, len,
      needed, at));
    return { codec: memory.decoded(codec), ...memory.told("row", at) };
  }
}
