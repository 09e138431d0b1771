// same.mjs MODULE SEED COUNT: a sum over all that two ends say of random samples, losses and repeats; same.py says the
// same of the native library.
import { createHash } from "node:crypto";
import { readFile } from "node:fs/promises";
import { load } from "../index.mjs";
const [, , module, seed, count] = process.argv;
let state = BigInt(seed);
const random = (below) => {
  state = (state * 6364136223846793005n + 1442695040888963407n) & 0xffffffffffffffffn;
  return Number(state >> 33n) % below;
};
const library = await load(await readFile(module));
const sum = createHash("sha256"), say = (...words) => sum.update(words.join(" ") + "\n");
const whole = (number) => BigInt.asUintN(64, BigInt(number));
const hex = (bytes) => Buffer.from(bytes).toString("hex");
const CODECS = [["opus", 48000, false], ["VP8", 90000, true], ["H264", 90000, true], ["VP9", 90000, true], ["AV1",
  90000, true], ["H265", 90000, true]];
for (const [codec, clockRate, isVideo] of CODECS) {
  const rows = [{ payloadType: 100, codec, clockRate, ...(isVideo ? {} : { channels: 2 }) }];
  const a = library.end({ rows, session: 1 }), b = library.end({ rows, session: 2 });
  const section = (ssrc) => [{ mid: "0", isVideo, ssrcs: [ssrc] }];
  const offer = a.offer(section(44)), answer = b.answer(offer, section(45));
  a.accept(answer);
  say(offer, answer);
  const sender = a.openSender({ mid: "0", ssrc: 44, payloadType: 100, first: 30000 });
  const receiver = b.openReceiver({ mid: "0", ssrc: 44, payloadType: 100, holdBack: 3 });
  let late = [];
  for (let k = 0; k < Number(count); k++) {
    const sample = Uint8Array.from({ length: 1 + random(isVideo ? 5000 : 300) }, () => random(256));
    if (codec === "H264") sample.set([0, 0, 0, 1, 0x65].slice(0, sample.length));
    if (codec === "H265") sample.set([0, 0, 0, 1, 0x26, 1].slice(0, sample.length));
    let datagrams = [];
    try {
      datagrams = a.pushSample(sender, 960 * k, sample);
    } catch (refused) {
      say("refused", refused.code);
    }
    for (const datagram of datagrams) {
      say(hex(datagram));
      const what = random(20);
      if (what === 0) continue;
      if (what === 1) late.push(datagram);
      else {
        if (what === 2) datagram[random(datagram.length)] ^= 1 << random(8);
        const taken = b.receive(datagram);
        say(taken.verdict ?? `${taken.stream} ${whole(taken.number)}`);
      }
    }
    if (random(4) === 0) for (const datagram of late.splice(0)) {
      const taken = b.receive(datagram);
      say(taken.verdict ?? `${taken.stream} ${whole(taken.number)}`);
    }
    for (const unit of b.units(receiver)) say(whole(unit.first), whole(unit.last), unit.time, unit.isKeyframe ? 1 : 0,
      hex(unit.bytes));
    say(b.missing(receiver).map(whole).join(","));
  }
  a.close();
  b.close();
  console.log(codec, sum.copy().digest("hex").slice(0, 16));
}
