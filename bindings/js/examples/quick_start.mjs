// Two ends agree on Opus, and one sends three samples to the other.
import { readFile } from "node:fs/promises";
import { load } from "../index.mjs";

const library = await load(process.env.JILQAMUR_WASM && await readFile(process.env.JILQAMUR_WASM));
const rows = [{ payloadType: 111, codec: "opus", clockRate: 48000, channels: 2, format: "minptime=10;useinbandfec=1" }];
const a = library.end({ rows, session: 1 }), b = library.end({ rows, session: 2 });
const offer = a.offer([{ mid: "0", isVideo: false, ssrcs: [44] }]); // the two texts are all that travels
a.accept(b.answer(offer, [{ mid: "0", isVideo: false, ssrcs: [45] }]));
const sender = a.openSender({ mid: "0", ssrc: 44, payloadType: 111, first: 1000 });
b.openReceiver({ mid: "0", ssrc: 44, payloadType: 111, holdBack: 4 });
for (let k = 0; k < 3; k++)
  // The datagrams of a sample would go out to the network; here they go to b.
  for (const datagram of a.pushSample(sender, 960 * k, Uint8Array.of(k, 2, 3))) {
    const { stream } = b.receive(datagram);
    if (stream !== undefined)
      for (const unit of b.units(stream)) console.log(`at ${unit.time}: [${[...unit.bytes].join(", ")}]`);
  }
a.close();
b.close();
