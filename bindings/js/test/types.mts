// What TypeScript says of a program over the package: `tsc --noEmit --strict` passes, and refuses each line of which
// that is expected.
import { load, Locked, Refused, type Unit, type Values } from "../index.mjs";

const library = await load();
const a = library.end({ rows: [{ payloadType: 111, codec: "opus", clockRate: 48000, channels: 2 }], session: 1n });
const offer: string = a.offer([{ mid: "0", isVideo: false, direction: "sendonly", ssrcs: [44], repairs: { 44: 45 } }]);
const sender: number = a.openSender({ mid: "0", ssrc: 44, payloadType: 111, first: 1, distances: [1] });
const values: Values = { audioLevel: -30, voiceActivity: true, captureTime: 5n };
const datagrams: Uint8Array[] = a.pushSample(sender, 960, new Uint8Array(3), { values, mid: "0" });
const taken = a.receive(datagrams[0]!);
if (taken.verdict === undefined) {
  const unit: Unit | undefined = a.poll(taken.stream);
  const first: number | undefined = unit?.first;
  console.log(first, unit?.eventDuration === 0n);
}
const arrival = a.arrival(datagrams[0]!);
if (arrival.verdict === undefined) console.log(arrival.low, arrival.payload.length, arrival.values.audioLevel);
for (const section of a.agreed()) console.log(section.mid, section.rows[0]?.codec, section.ssrcs.length);
const header = library.readHeader(datagrams[0]!);
if (header) library.writeHeader({ ...header, csrc: [1] });
library.history({ most: 9, mostBytes: 999 }).keep(1n, new Uint8Array(9));
console.log(library.requester({ most: 3, delay: 9n }).ask([1, 2n], 3, 4).length);
const forwarder = library.forwarder(5);
console.log(forwarder.forward({ source: 1, number: 2n, timestamp: 3 }, true)?.number, library.widen(1, 2) === 2n);
const cut = library.packetizer({ codec: "VP8", clockRate: 90000, pictureId: 1 });
for (const { payload, marker } of cut.packetize(1200, new Uint8Array(9))) console.log(payload.length, marker);
console.log(library.sender({ codec: "opus", clockRate: 48000, ssrc: 1, payloadType: 2 }).pushSample(0, new Uint8Array(1)));
// @ts-expect-error a direction that there isn't
a.offer([{ mid: "0", isVideo: false, direction: "both" }]);
// @ts-expect-error a receiver without holdBack
a.openReceiver({ mid: "0", ssrc: 44, payloadType: 111 });
// @ts-expect-error an answer that there isn't
console.log((e: Refused) => e.answer === "NO_ANSWER");
try {
  a.accept(offer);
} catch (refused) {
  if (refused instanceof Refused) console.log(refused.answer, refused.place);
  if (refused instanceof Locked) throw refused;
}
a.close();
