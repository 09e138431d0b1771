// Made of jilqamur.h by bindings/js/generate: the fields of its structs, whose meaning is said there.
export interface HeaderFields {
  hasPadding: boolean;
  hasExtension: boolean;
  marker: boolean;
  payloadType: number;
  sequenceNumber: number;
  timestamp: number;
  ssrc: number;
  csrcCount: number;
  csrc: number[];
  headerLen: number;
}
export interface PacketInfoFields {
  isHead: boolean;
  isTail: boolean;
  showsKeyFrame: boolean;
  spatialLayer?: number;
  temporalLayer?: number;
}
export interface FormatFields {
  clockRate: number;
  octetAlign?: boolean;
  maxDonDiff?: number;
}
export interface UnitFields {
  first: number;
  last: number;
  time: number;
  isKeyframe: boolean;
  pictureId?: number;
  baseLayer?: number;
  event?: number;
  eventEnd: boolean;
  eventVolume: number;
  eventDuration: bigint;
}
export interface PacketizerParamsFields {
  pictureId?: number;
  forBrowsers: boolean;
}
export interface RowFields {
  payloadType: number;
  resend?: number;
  red?: number;
  clockRate: number;
  channels?: number;
}
export interface RemoteFields {
  setup?: number;
  ownSetup?: number;
  isTrickling: boolean;
  isLite: boolean;
  candidates: number;
}
export interface SectionFields {
  isVideo: boolean;
  sends: boolean;
  receives: boolean;
  rows: number;
  ssrcs: number;
}
export interface StreamFields {
  first: number;
  mtu: number;
  limit: number;
  hasRed: boolean;
  pictureId?: number;
  forBrowsers: boolean;
}
export interface ValuesFields {
  audioLevel?: number;
  voiceActivity?: boolean;
  absSendTime?: bigint;
  transportCc?: number;
  videoOrientation?: number;
  playDelayMin?: number;
  playDelayMax?: number;
  videoContentType?: number;
  captureTime?: bigint;
  clockOffset?: bigint;
}
export interface ExtensionIdsFields {
  audioLevel: number;
  absSendTime: bigint;
  transportCc: number;
  videoOrientation: number;
  playDelay: number;
  videoContentType: number;
  captureTime: bigint;
  mid: number;
  rid: number;
  repairedRid: number;
}
export interface NamesFields {
  midLen: number;
  mid?: number[];
  ridLen: number;
  rid?: number[];
  repairedRidLen: number;
  repairedRid?: number[];
}
export interface ArrivalFields {
  low: number;
  timestamp: number;
  marker: boolean;
  start: number;
  end: number;
}
export interface PlacedFields {
  number: number;
  timestamp: number;
}
export interface SenderParamsFields {
  ssrc: number;
  payloadType: number;
  first: number;
  mtu: number;
  limit: number;
  pictureId?: number;
  forBrowsers: boolean;
}
export type Answer =
  | "OK"
  | "MEMORY"
  | "IN_USE"
  | "CLOSED"
  | "UNREADABLE"
  | "DAMAGED"
  | "REFUSED"
  | "UNWRITABLE"
  | "TOO_SMALL"
  | "NOT_TEXT"
  | "OUT_OF_RANGE"
  | "NOT_MADE"
  | "NOTHING"
  | "FOREIGN"
  | "NO_STREAM"
  | "ROW_NOT_PLAIN"
  | "TYPES_NOT_DISTINCT"
  | "NOT_WRITABLE"
  | "TEXT_UNREADABLE"
  | "OUT_OF_TURN"
  | "NOT_MEDIA"
  | "NOT_CORRESPONDING"
  | "ROUND"
  | "NO_COMMON_ROW"
  | "NO_SECTION"
  | "ROW_NOT_AGREED"
  | "ROW_DIFFERS"
  | "WRONG_DIRECTION"
  | "SSRC_NOT_NAMED"
  | "ALREADY_OPEN"
  | "STREAM_FAILED"
  | "TIME_TOO_LARGE"
  | "LIMIT_TOO_SMALL"
  | "PAYLOAD"
  | "PACKET_TOO_SHORT"
  | "SAMPLE_TOO_LARGE"
  | "TOO_MANY_REFERENCES"
  | "H265_CORRUPTED"
  | "H266_CORRUPTED"
  | "AGGREGATE_CUT_SHORT"
  | "UNIT_TYPE_NOT_HANDLED"
  | "VP8_CORRUPTED"
  | "VP9_CORRUPTED"
  | "AV1_CORRUPTED"
  | "RED_CORRUPTED"
  | "EVENT_INVALID"
  | "AMR_WB_CORRUPTED"
  | "NO_REPAIR"
  | "NOT_OWN"
  | "REST_UNREAD"
  | "MID_NOT_KEPT"
  | "MID_TWICE"
  | "SECTION_REJECTED"
  | "SEVERAL_BUNDLES"
  | "OUTSIDE_BUNDLE"
  | "NOTHING_LEFT"
  | "KEYS_ALONE"
  | "UFRAG_NOT_FIT"
  | "PASSWORD_NOT_FIT"
  | "SETUP_NOT_FIT"
  | "ADDS_REDUNDANCY"
  | "NUMBER_TOO_LARGE"
  | "NO_PAYLOAD";
export type Fault =
  | "VERSION"
  | "ORIGIN"
  | "NAME"
  | "TIMES"
  | "STRAY"
  | "MISSING_MID"
  | "SEVERAL_MIDS"
  | "SEVERAL_SETUPS"
  | "DIRECTIONS"
  | "NO_PAYLOAD_TYPE"
  | "RTP_MAPS"
  | "CONFLICTING_APTS";
