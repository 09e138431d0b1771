// What the values of the library have in common: units, datagrams and missing numbers are fetched alike.

import { CODES } from "./abi.mjs";
import { done, Refused } from "./memory.mjs";

const MOST_MISSING = 1023;

/** Whether a stream has a unit, or its next frame can't be read. */
export function polled(code, place) {
  if (code === CODES.NOTHING) return false;
  done(code, place);
  return true;
}

/** The bytes of a unit, and what is told of it. */
export function unitOf(memory, call, place) {
  memory.begin();
  const told = memory.struct("unit");
  const bytes = memory.fetched((at, len, needed) => call(at, len, needed, told), place);
  return bytes && { bytes, ...memory.told("unit", told) };
}

/** All units that `poll` has; frames that the codec can't read are passed over. */
export function* unitsOf(poll) {
  for (; ;) {
    let unit;
    try {
      unit = poll();
    } catch (refused) {
      if (refused instanceof Refused && refused.code >= CODES.PAYLOAD
        && refused.code <= CODES.AMR_WB_CORRUPTED) continue;
      throw refused;
    }
    if (!unit) return;
    yield unit;
  }
}

const BLOCK = 1 << 15;

/** So many datagrams, which `call` copies by their places. Those that fit one block of memory are parts of one. */
export function datagramsOf(memory, count, call) {
  const found = [];
  while (found.length < count) {
    memory.begin();
    const block = memory.room(BLOCK), needed = memory.room(8), ends = [];
    let used = 0;
    while (found.length + ends.length < count) {
      const code = call(found.length + ends.length, block + used, BLOCK - used, needed);
      if (code === CODES.TOO_SMALL) break;
      done(code);
      used += memory.u64(needed);
      ends.push(used);
    }
    if (ends.length === 0) found.push(memory.fetched((...words) => call(found.length, ...words)));
    const copied = memory.u8.slice(block, block + used);
    ends.forEach((end, index) => found.push(copied.subarray(ends[index - 1] ?? 0, end)));
  }
  return found;
}

/** The numbers of 64 bits that a call tells. */
export function missingOf(memory, call, place) {
  memory.begin();
  const at = memory.room(8 * MOST_MISSING), needed = memory.room(8);
  done(call(at, MOST_MISSING, needed), place);
  return Array.from({ length: memory.u64(needed) }, (_, index) => memory.u64(at + 8 * index));
}
