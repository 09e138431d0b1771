// The package's values in Node: `node --test test`, with the module that JILQAMUR_WASM names or that beside the
// package.
import assert from "node:assert/strict";
import { readFile } from "node:fs/promises";
import { test } from "node:test";
import { CODES, load, Locked, MIN_HELD, Refused, VERSION } from "../index.mjs";
import { CALLS } from "../abi.mjs";

const module = process.env.JILQAMUR_WASM && new WebAssembly.Module(await readFile(process.env.JILQAMUR_WASM));
const library = await load(module);
const rows = [{ payloadType: 111, codec: "opus", clockRate: 48000, channels: 2, format: "minptime=10;useinbandfec=1" }];
const section = (ssrc) => [{ mid: "0", isVideo: false, ssrcs: [ssrc] }];

function pair(options = {}) {
  const a = library.end({ rows, session: 1, ...options }), b = library.end({ rows, session: 2n, ...options });
  a.accept(b.answer(a.offer(section(44)), section(45)));
  const sender = a.openSender({ mid: "0", ssrc: 44, payloadType: 111, first: 1000 });
  const receiver = b.openReceiver({ mid: "0", ssrc: 44, payloadType: 111, holdBack: 4 });
  return { a, b, sender, receiver };
}

test("each call of the header is made by the package", async () => {
  const files = ["memory", "exchanges", "ends", "streams", "index", "fetching"];
  const text = (await Promise.all(files.map((it) => readFile(new URL(`../${it}.mjs`, import.meta.url),
    "utf8")))).join("");
  const closing = new Set(["window", "packetizer", "depacketizer", "end", "sender", "receiver",
    "forwarder", "history", "requester"].map((it) => `${it}_close`));
  assert.deepEqual(CALLS.filter((name) => !closing.has(name) && !new RegExp(`[."]${name}\\b`).test(text)), []);
});

test("samples arrive as quick_start prints them", () => {
  const { a, b, sender, receiver } = pair(), lines = [];
  for (let k = 0; k < 3; k++)
    for (const datagram of a.pushSample(sender, 960 * k, Uint8Array.of(k, 2, 3))) {
      assert.deepEqual(b.receive(datagram), { stream: receiver, number: 1000 + k });
      for (const unit of b.units(receiver)) lines.push(`at ${unit.time}: [${[...unit.bytes].join(", ")}]`);
    }
  assert.deepEqual(lines, ["at 0: [0, 2, 3]", "at 960: [1, 2, 3]", "at 1920: [2, 2, 3]"]);
  assert.equal(a.nextNumber(sender), 1003);
  a.close();
  b.close();
});

test("a lost datagram is missing, a repeated one refused, another's foreign", () => {
  const { a, b, sender, receiver } = pair();
  const sent = [0, 1, 2, 3].flatMap((k) => a.pushSample(sender, 960 * k, Uint8Array.of(k)));
  b.receive(sent[0]);
  assert.equal(b.poll(receiver).time, 0);
  b.receive(sent[2]);
  b.receive(sent[3]);
  assert.equal(b.poll(receiver), undefined);
  assert.deepEqual(b.missing(receiver), [1001]);
  assert.deepEqual([b.isPassed(receiver, 1000), b.isPassed(receiver, 1001)], [true, false]);
  assert.deepEqual(b.receive(sent[2]), { verdict: "REFUSED" });
  assert.deepEqual(b.receive(Uint8Array.of(1, 2)), { verdict: "UNREADABLE" });
  assert.deepEqual(a.receive(sent[2]), { verdict: "FOREIGN" });
  assert.equal(b.drain(receiver).time, 1920);
  assert.deepEqual(b.missing(receiver), []);
  assert.deepEqual([...b.units(receiver)].map((unit) => unit.time), [2880]);
  b.passTo(receiver, 1010);
  assert.equal(b.passEmpty(receiver, 1011), true);
  b.keepWithin(receiver, 0);
  a.skipTo(sender, 2000);
  assert.equal(a.nextNumber(sender), 2000);
  a.closeSender(sender);
  b.closeReceiver(receiver);
  assert.throws(() => b.poll(receiver), { answer: "NO_STREAM", place: `stream ${receiver}` });
  a.close();
  b.close();
});

test("numbers before 0 are negative", () => {
  const receiver = library.receiver({ codec: "opus", clockRate: 48000, holdBack: 9 });
  const push = (sequenceNumber) => receiver.push({ sequenceNumber, timestamp: 0, marker: false,
    payload: Uint8Array.of(1) });
  assert.deepEqual([65534, 65535, 0].map(push), [65534, 65535, 65536]);
  receiver.close();
  const window = library.window(), datagram = new Uint8Array(13);
  datagram[0] = 0x80;
  datagram[3] = 3;
  assert.deepEqual(window.receive(datagram), { number: 3 });
  datagram.set([0xff, 0xff], 2);
  assert.deepEqual(window.receive(datagram), { number: -1 });
  window.close();
});

test("refusals have a code, words and a place; numbers are looked at", () => {
  const a = library.end({ rows });
  assert.throws(() => a.accept("v=0"), (refused) => refused instanceof Refused && refused.answer === "TEXT_UNREADABLE");
  assert.throws(() => a.openSender({ mid: "0", ssrc: 1, payloadType: 111 }), { answer: "NO_SECTION",
    place: /section 0/ });
  assert.throws(() => a.offer([{ mid: "a-b", isVideo: false }]), { answer: "MID_NOT_KEPT", place: /a-b/ });
  assert.throws(() => a.offer([{ mid: "0", isVideo: false, ssrcs: [2 ** 32] }]), RangeError);
  assert.throws(() => a.offer([{ mid: "0", isVideo: false, direction: "toString" }]), TypeError);
  assert.throws(() => library.end({ rows: [{ payloadType: 300, codec: "opus", clockRate: 48000 }] }), RangeError);
  assert.throws(() => library.end({ rows: [{ payloadType: 1, codec: "opus", clockRate: 0 }] }),
    { answer: "OUT_OF_RANGE", place: "row 0 (opus)" });
  assert.throws(() => library.sender({ codec: "none", clockRate: 1, ssrc: 1, payloadType: 1 }), {
    answer: "OUT_OF_RANGE", place: "codec none" });
  assert.equal(a.withdraw(), false);
  a.close();
  a.close();
  assert.throws(() => a.offer(section(1)), { answer: "CLOSED", code: CODES.CLOSED });
});

test("values of header extensions travel, and are read without an end", () => {
  const uri = "urn:ietf:params:rtp-hdrext:ssrc-audio-level", sdes = "urn:ietf:params:rtp-hdrext:sdes:mid";
  const { a, b, sender, receiver } = pair({ extensions: { [uri]: 1, [sdes]: 2 } });
  const values = { audioLevel: -30, voiceActivity: true };
  const [datagram] = a.pushSample(sender, 960, Uint8Array.of(1), { values, mid: "0" });
  const arrival = b.arrival(datagram);
  assert.deepEqual([arrival.stream, arrival.low, arrival.timestamp, arrival.values], [receiver, 1000, 960, values]);
  assert.deepEqual([...arrival.payload], [1]);
  assert.deepEqual(library.headerValues(datagram, { audioLevel: 1, mid: 2 }), { values, names: { mid: "0" } });
  assert.equal(b.values(), undefined);
  b.receive(datagram);
  b.poll(receiver);
  assert.deepEqual(b.values(), values);
  a.close();
  b.close();
});

test("agreed sections, repairs, and a browser's offer", async () => {
  const video = [{ payloadType: 96, codec: "VP8", clockRate: 90000, resend: 97 }];
  const a = library.end({ rows: video, session: 1 }), b = library.end({ rows: video, session: 2 });
  const sections = (ssrcs, repairs) => [{ mid: "v", isVideo: true, ssrcs, repairs }];
  a.accept(b.answer(a.offer(sections([5], { 5: 6 })), sections([7])));
  assert.deepEqual(b.agreed(), [{ mid: "v", isVideo: true, sends: true, receives: true, ssrcs: [5],
    rows: [{ codec: "VP8", payloadType: 96, resend: 97, clockRate: 90000 }] }]);
  const sender = a.openSender({ mid: "v", ssrc: 5, payloadType: 96, limit: 1500 });
  const receiver = b.openReceiver({ mid: "v", ssrc: 5, payloadType: 96, holdBack: 1 });
  const [datagram] = a.pushSample(sender, 0, Uint8Array.of(0, 1, 2, 3));
  assert.deepEqual(b.receive(a.repair(sender, datagram)), { stream: receiver, number: 0 });
  assert.deepEqual([...b.poll(receiver).bytes], [0, 1, 2, 3]);
  a.close();
  b.close();
  const offer = await readFile(new URL("../../../crates/browser_lines/data/chromium-both_data_gathered.sdp",
    import.meta.url), "utf8");
  const end = library.end({ defaultRows: true, session: 3 });
  const own = end.answerBrowser(offer, [{ direction: "recvonly" }, { direction: "recvonly" }]);
  const remote = end.remote();
  assert.equal(remote.setup, "actpass");
  assert.match(remote.fingerprint, /^sha-256 /);
  assert.ok(remote.candidates.length > 0 && remote.candidates.every((it) => it.startsWith("candidate:")));
  const text = end.forBrowser(own, { setup: "passive", ufrag: "abcd", password: "abcdefghijklmnopqrstuv",
    digest: new Uint8Array(32).fill(7), isLite: true });
  assert.match(text, /a=setup:passive/);
  end.takeTypes(text);
  const [first] = end.agreed();
  end.openUnsignalled({ mid: first.mid, ssrc: first.ssrcs[0] ?? 9, payloadType: first.rows[0].payloadType,
    holdBack: 0 });
  end.close();
});

test("payloads, streams and windows without an end", () => {
  const format = { codec: "VP8", clockRate: 90000 };
  const cut = library.packetizer({ ...format, pictureId: 5 }), joined = library.depacketizer({ ...format,
    holdBack: 2 });
  const frame = new Uint8Array(3000).map((_, index) => index * 3);
  frame[0] = 0;
  const packets = cut.packetize(1000, frame);
  assert.deepEqual(packets.map(({ marker }) => marker), [false, false, false, true].slice(-packets.length));
  packets.forEach(({ payload, marker }, number) => joined.push({ number, timestamp: 7, marker, payload }));
  const [unit] = joined.units();
  assert.deepEqual([unit.bytes, unit.pictureId, unit.isKeyframe, unit.time], [frame, 5, true, 7]);
  assert.equal(joined.drain(), undefined);
  assert.throws(() => cut.packetize(0, frame), { answer: "OUT_OF_RANGE" });
  const info = library.payloadInfo("VP8", packets[0].payload, false);
  assert.deepEqual([info.isHead, info.isTail, info.showsKeyFrame], [true, false, true]);
  const sender = library.sender({ ...format, ssrc: 9, payloadType: 96, first: 65535 });
  const receiver = library.receiver({ ...format, holdBack: 1 }), window = library.window();
  for (const datagram of sender.pushSample(3000, frame)) {
    const header = library.readHeader(datagram);
    assert.equal(header.ssrc, 9);
    const again = library.writeHeader(header);
    assert.deepEqual(again, datagram.slice(0, header.headerLen));
    const payload = library.unpad(header.hasPadding, datagram.subarray(header.headerLen));
    assert.equal(typeof receiver.push({ ...header, payload }), "number");
    assert.equal(typeof window.receive(datagram).number, "number");
    assert.deepEqual(window.receive(datagram), { verdict: "REFUSED" });
  }
  assert.deepEqual(receiver.poll().bytes, frame);
  assert.deepEqual(receiver.missing(), []);
  receiver.passTo(70000);
  receiver.keepWithin(100);
  assert.equal(receiver.drain(), undefined);
  assert.equal(library.widen(65535, 0), 65536n);
  assert.equal(library.widen(-1, 0), 0n);
  assert.equal(library.widen(0, 65535), 2n ** 64n - 1n);
  for (const it of [cut, joined, sender, receiver, window]) it[Symbol.dispose ?? Symbol.for("Symbol.dispose")]();
});

test("a history keeps what fits, and a requester asks a round trip apart", () => {
  const history = library.history({ most: 4, mostBytes: 24 }), datagram = Uint8Array.of(1, 2, 3, 4, 5, 6, 7, 8, 9);
  [5, 1, 7, 8, 9].forEach((size, index) => history.keep(65533 + index, datagram.subarray(0, size)));
  assert.deepEqual([65533, 65534, 65535, 0, 1].map((low) => history.asked(low)?.length),
    [undefined, undefined, 7, 8, 9]);
  assert.deepEqual(history.asked(1), datagram);
  history.close();
  const requester = library.requester({ most: 2, delay: 10 });
  assert.deepEqual(requester.ask([], 0, 50), []);
  for (const [missing, now, told] of [[[70, 71], 100, []], [[70, 71], 109, []], [[71], 110, [71]], [[71], 159, []],
    [[70, 71], 160n, [71]], [[70, 71], 210, [70]]])
    assert.deepEqual(requester.ask(missing, now, 50), told);
  assert.throws(() => requester.ask([3, 3], 300, 50), (refused) => refused.code === CODES.OUT_OF_RANGE);
  requester.close();
});

test("a forwarder numbers packets of two sources as one stream", () => {
  const forwarder = library.forwarder(100);
  assert.equal(forwarder.place({ source: 1, number: 7, timestamp: 0 }), undefined);
  forwarder.switch({ source: 1, number: 7, timestamp: 50, at: 1000 });
  assert.deepEqual(forwarder.forward({ source: 1, number: 7, timestamp: 50 }, true), { number: 100, timestamp: 1000 });
  assert.equal(forwarder.passEmpty(1, 8), true);
  assert.deepEqual(forwarder.forward({ source: 1, number: 9, timestamp: 60 }, true), { number: 101, timestamp: 1010 });
  forwarder.endAt(10);
  forwarder.switch({ source: 2, number: 3, timestamp: 0, at: 1020 });
  assert.equal(forwarder.place({ source: 2, number: 3, timestamp: 0 }).timestamp, 1020);
  forwarder.skipTo(5);
  assert.ok(forwarder.next() >= 102);
  forwarder.close();
  const { a, b, sender, receiver } = pair(), [datagram] = a.pushSample(sender, 0, Uint8Array.of(4, 4));
  const sent = a.sendPacket(sender, { number: 1005, timestamp: 9, marker: true, payload: Uint8Array.of(4, 4) });
  assert.equal(b.takeNumber(receiver, library.readHeader(datagram).sequenceNumber), 1000);
  assert.equal(b.takeNumber(receiver, 1000), undefined);
  assert.equal(b.receive(sent).number, 1005);
  a.close();
  b.close();
});

test("a session text's faulty line is told", () => {
  assert.deepEqual(library.faultyLine("v=0\r\no=bad\r\n"), { line: "o=bad", number: 2, fault: "ORIGIN",
    words: "no valid o=" });
  assert.equal(library.faultyLine("\ufeffv=0\r\n").line, "\ufeffv=0");
  assert.throws(() => library.faultyLine("\ud800"), TypeError);
  assert.equal(VERSION, "0.10.0");
});

test("a large frame goes through a memory that grows, and memory is used again", () => {
  const a = library.end({ defaultRows: true, session: 1 }), b = library.end({ defaultRows: true, session: 2 });
  const video = (ssrc) => [{ mid: "v", isVideo: true, ssrcs: [ssrc] }];
  const offer = a.offer(video(7));
  a.accept(b.answer(offer, video(8)));
  const vp8 = Number(/a=rtpmap:(\d+) VP8/.exec(offer)[1]);
  const sender = a.openSender({ mid: "v", ssrc: 7, payloadType: vp8, mtu: 1200 });
  const receiver = b.openReceiver({ mid: "v", ssrc: 7, payloadType: vp8, holdBack: 2, held: MIN_HELD });
  const before = library.memoryBytes, frame = new Uint8Array(3_000_000).map((_, index) => index * 7);
  frame[0] = 0;
  for (const datagram of a.pushSample(sender, 0, frame)) b.receive(datagram);
  const [unit] = b.units(receiver);
  assert.ok(library.memoryBytes > before);
  assert.deepEqual(Buffer.compare(unit.bytes, frame), 0);
  a.close();
  b.close();
  const grown = library.memoryBytes;
  for (let round = 0; round < 300; round++) {
    const { a, b, sender } = pair();
    for (let k = 0; k < 20; k++) for (const datagram of a.pushSample(sender, 960 * k,
      new Uint8Array(round % 100 + 1))) b.receive(datagram);
    a.close();
    b.close();
  }
  assert.equal(library.memoryBytes, grown);
});

test("what is let go is freed", { skip: !globalThis.gc && "node runs without --expose-gc" }, async () => {
  const own = await load(module);
  for (let k = 0; k < 3000; k++) {
    own.end({ defaultRows: true, session: k });
    if (k % 100 === 0) {
      globalThis.gc();
      await new Promise((resume) => setTimeout(resume, 1));
    }
  }
  assert.ok(own.memoryBytes < 32 << 20, `${own.memoryBytes}`);
});

test("a trap locks the module", async () => {
  const { Memory } = await import("../memory.mjs");
  const memory = new Memory(await WebAssembly.instantiate(module ?? await WebAssembly.compile(
    await readFile(new URL("../jilqamur.wasm", import.meta.url)))));
  assert.throws(() => memory.call.end_open(0x7fffffff), Locked);
  assert.equal(memory.isLocked, true);
  assert.throws(() => memory.call.version(), Locked);
  assert.equal((await load(module)).isLocked, false);
});
