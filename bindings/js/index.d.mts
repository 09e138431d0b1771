import type { Answer, ArrivalFields, ExtensionIdsFields, Fault, HeaderFields, PacketInfoFields, PlacedFields,
  RemoteFields,
  RowFields, SectionFields, SenderParamsFields, StreamFields, UnitFields, ValuesFields } from "./structs.mjs";

declare global {
  // Compilers before TypeScript 5.2 don't have it.
  interface SymbolConstructor {
    readonly dispose: unique symbol;
  }
}

export type { Answer, Fault };
export declare const VERSION: string;
export declare const CODES: Readonly<Record<Answer, number>>;
export declare const MIN_HELD: number;
export declare const MAX_HELD: number;

/** A call that was refused. */
export declare class Refused extends Error {
  readonly code: number;
  /** The answer's name in jilqamur.h, without JILQAMUR_. */
  readonly answer: Answer;
  /** What it was about, as far as the package can tell: a row, an extension, a section, a stream, a codec. */
  readonly place?: string;
}

/** The module ended within a call, and takes no further one. */
export declare class Locked extends Error {}

export type Direction = "sendrecv" | "sendonly" | "recvonly" | "inactive";
export type Setup = "actpass" | "active" | "passive";
export type Values = Partial<ValuesFields>;

/** A payload type, and what it stands for. */
export interface Row extends RowFields {
  codec: string;
  /** What follows the type in its a=fmtp line. */
  format?: string;
}

export interface SectionRequest {
  direction?: Direction;
  ssrcs?: readonly number[];
  /** For an SSRC the one under which its datagrams are sent again (RFC 4588). */
  repairs?: Readonly<Record<number, number>>;
}

export interface Section extends SectionRequest {
  /** At most 16 letters, digits and _. */
  mid: string;
  isVideo: boolean;
}

export interface AgreedSection extends Omit<SectionFields, "rows" | "ssrcs"> {
  mid: string;
  rows: (RowFields & { codec: string })[];
  /** Those that the other end names. */
  ssrcs: number[];
}

export interface Remote extends Omit<RemoteFields, "setup" | "ownSetup" | "candidates"> {
  setup?: Setup;
  ownSetup?: Setup;
  ufrag?: string;
  password?: string;
  fingerprint?: string;
  candidates: string[];
}

export interface Unit extends UnitFields {
  bytes: Uint8Array;
}

export interface Header extends Omit<HeaderFields, "csrcCount"> {}

export type Verdict = "UNREADABLE" | "FOREIGN" | "DAMAGED" | "REFUSED";
export type Received = { stream: number; number: number; verdict?: undefined } | {
  verdict: Verdict; stream?: undefined };
export type Arrival =
  | Omit<ArrivalFields, "start" | "end"> & { stream: number; payload: Uint8Array; values: Values; verdict?: undefined }
  | { verdict: Verdict; stream?: undefined };

export interface EndOptions {
  rows?: readonly Row[];
  /** The ids of header extensions, 1 to 16, by their URIs. */
  extensions?: Readonly<Record<string, number>>;
  session?: number | bigint;
  /** Whether Opus, VP8, H.264, H.265, VP9 and AV1 follow the rows. */
  defaultRows?: boolean;
}

export interface SenderOptions extends Partial<Omit<StreamFields, "hasRed">> {
  mid: string;
  ssrc: number;
  payloadType: number;
  /** How many payloads back the redundant ones are, rising, 1 to 8; none without redundancy. */
  distances?: readonly number[];
}

export interface ReceiverOptions {
  mid: string;
  ssrc: number;
  payloadType: number;
  /** Past a missing datagram a unit is handed out only once more frames than this are complete. */
  holdBack: number;
  /** The most packets that wait, MIN_HELD to MAX_HELD. */
  held?: number;
}

export interface Transport {
  setup: Setup;
  ufrag: string;
  password: string;
  digest: Uint8Array;
  hash?: string;
  isLite?: boolean;
}

export interface Format {
  codec: string;
  clockRate: number;
  octetAlign?: boolean;
  maxDonDiff?: number;
}

/** What a value of the library holds is freed by close, by `using`, or some time after nothing refers to it. */
declare class Handle {
  readonly isOpen: boolean;
  close(): void;
  [Symbol.dispose](): void;
}

/** An end of a session. What each call does and refuses is said at the call of its name in jilqamur.h. */
export declare class End extends Handle {
  private constructor();
  offer(sections: readonly Section[]): string;
  answer(offer: string, sections: readonly Section[]): string;
  accept(answer: string): void;
  withdraw(): boolean;
  answerBrowser(offer: string, requests: readonly (SectionRequest | null)[]): string;
  acceptBrowser(answer: string): void;
  takeTypes(text: string): void;
  forBrowser(own: string, transport: Transport): string;
  remote(): Remote;
  agreed(): AgreedSection[];
  openSender(options: SenderOptions): number;
  openReceiver(options: ReceiverOptions): number;
  openUnsignalled(options: ReceiverOptions): number;
  pushSample(stream: number, ticks: number | bigint, sample: Uint8Array, options?: {
    values?: Values; mid?: string }): Uint8Array[];
  repair(stream: number, datagram: Uint8Array): Uint8Array;
  sendPacket(stream: number, packet: { number: number | bigint; timestamp: number; marker: boolean; payload: Uint8Array;
    values?: Values; mid?: string }): Uint8Array;
  receive(datagram: Uint8Array): Received;
  arrival(datagram: Uint8Array): Arrival;
  takeNumber(stream: number, low: number): number | undefined;
  poll(stream: number): Unit | undefined;
  drain(stream: number): Unit | undefined;
  units(stream: number): Generator<Unit, void, undefined>;
  values(): Values | undefined;
  missing(stream: number): number[];
  isPassed(stream: number, number: number | bigint): boolean;
  passTo(stream: number, number: number | bigint): void;
  passEmpty(stream: number, number: number | bigint): boolean;
  keepWithin(stream: number, bytes: number): void;
  nextNumber(stream: number): number;
  skipTo(stream: number, number: number | bigint): void;
  closeSender(stream: number): void;
  closeReceiver(stream: number): void;
}

export declare class Window extends Handle {
  private constructor();
  receive(datagram: Uint8Array): { number: number; verdict?: undefined } | { verdict: "UNREADABLE" | "REFUSED" };
}

export declare class Packetizer extends Handle {
  private constructor();
  packetize(mtu: number, sample: Uint8Array): { payload: Uint8Array; marker: boolean }[];
}

export declare class Depacketizer extends Handle {
  private constructor();
  push(packet: { number: number | bigint; timestamp: number; marker: boolean; payload: Uint8Array }): void;
  pop(): Unit | undefined;
  drain(): Unit | undefined;
  units(): Generator<Unit, void, undefined>;
}

export declare class Sender extends Handle {
  private constructor();
  pushSample(ticks: number | bigint, sample: Uint8Array): Uint8Array[];
}

export declare class Receiver extends Handle {
  private constructor();
  push(packet: { sequenceNumber: number; timestamp: number; marker: boolean; payload: Uint8Array }): number | undefined;
  poll(): Unit | undefined;
  drain(): Unit | undefined;
  units(): Generator<Unit, void, undefined>;
  missing(): number[];
  passTo(number: number | bigint): void;
  keepWithin(bytes: number): void;
}

export interface Packet {
  /** Any number that the caller gives a source. */
  source: number | bigint;
  number: number | bigint;
  timestamp: number;
}

export declare class Forwarder extends Handle {
  private constructor();
  switch(from: Packet & { at: number }): void;
  skipTo(number: number | bigint): void;
  endAt(number: number | bigint): void;
  place(packet: Packet): PlacedFields | undefined;
  forward(packet: Packet, ends: boolean): PlacedFields | undefined;
  passEmpty(source: number | bigint, number: number | bigint): boolean;
  next(): number;
}

export declare class PacketHistory extends Handle {
  private constructor();
  keep(number: number | bigint, datagram: Uint8Array): void;
  /** The datagram that a NACK asks for by the low 16 bits of its number. */
  asked(low: number): Uint8Array | undefined;
}

export declare class NackRequester extends Handle {
  private constructor();
  /** The numbers to ask for now; times are ticks of the caller's clock. */
  ask(missing: readonly (number | bigint)[], now: number | bigint, roundTrip: number | bigint): number[];
}

/** The library, with a memory of its own, which grows and never shrinks. */
export declare class Jilqamur {
  private constructor();
  readonly memoryBytes: number;
  readonly isLocked: boolean;
  end(options?: EndOptions): End;
  window(): Window;
  packetizer(options: Format & { pictureId?: number; forBrowsers?: boolean }): Packetizer;
  depacketizer(options: Format & { holdBack: number; held?: number }): Depacketizer;
  sender(options: Format & Partial<SenderParamsFields> & { ssrc: number; payloadType: number }): Sender;
  receiver(options: Format & { holdBack: number; held?: number }): Receiver;
  forwarder(first?: number | bigint): Forwarder;
  /** Of more than `most` datagrams, or `mostBytes` bytes, those with the lowest numbers go. */
  history(bounds: { most: number; mostBytes: number }): PacketHistory;
  /** Each number is asked for at most `most` times, the first time `delay` ticks after it is missing. */
  requester(bounds: { most: number; delay: number | bigint }): NackRequester;
  readHeader(datagram: Uint8Array): Header | undefined;
  writeHeader(header: Partial<Header> & {
    payloadType: number; sequenceNumber: number; timestamp: number; ssrc: number }): Uint8Array;
  unpad(hasPadding: boolean, payload: Uint8Array): Uint8Array;
  payloadInfo(codec: string, payload: Uint8Array, marker: boolean): PacketInfoFields;
  headerValues(datagram: Uint8Array, ids: Partial<ExtensionIdsFields>):
    { values: Values; names: { mid?: string; rid?: string; repairedRid?: string } } | undefined;
  faultyLine(text: string): { line: string; number: number; fault: Fault; words: string } | undefined;
  widen(previous: number | bigint, low: number): bigint;
}

export type Source = string | URL | ArrayBuffer | ArrayBufferView | Response | WebAssembly.Module;

/** Loads the module beside the package, or the one that is given. */
export declare function load(source?: Source): Promise<Jilqamur>;
