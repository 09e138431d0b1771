"""Packets of AV1 temporal units, packed from the layouts of the RTP payload format and of the AV1 bitstream alone."""

from payloads import flag, joined

SEQUENCE_HEADER, UNSENT = 1, [2, 8, 15]


def size(number):
    """leb128: seven bits a byte, the low ones first."""
    rest = size(number >> 7) if number >> 7 else b""
    return joined([(int(number >> 7 > 0), 1), (number & 127, 7)]) + rest


def units(text):
    """The type of each unit of a temporal unit, and the unit without its size field."""
    while text:
        # forbidden bit, type, extension flag, has_size_field, reserved bit; no unit here has an extension
        head = text[0]
        assert head & 6 == 2, head
        count = next(i for i, byte in enumerate(text[1:], 1) if byte < 128)
        length = sum((byte & 127) << 7 * i for i, byte in enumerate(text[1 : 1 + count]))
        body, text = text[1 + count : 1 + count + length], text[1 + count + length :]
        yield head >> 3 & 15, bytes([head & ~2]) + body


def packets(text, limit):
    """Up to three elements a packet go by their count W, the last one without a size."""
    sent = [(kind, unit) for kind, unit in units(text) if kind not in UNSENT]
    is_key = any(kind == SEQUENCE_HEADER for kind, _ in sent)
    elements, goes_on, out = [unit for _, unit in sent], False, []
    while elements:
        begins_inside, body, whole = goes_on, b"", 0
        while len(elements) > 1 and len(body) + len(size(len(elements[0]))) + len(elements[0]) < limit - 1:
            body, whole = body + size(len(elements[0])) + elements[0], whole + 1
            elements = elements[1:]
        room = limit - 1 - len(body)
        body, elements = body + elements[0][:room], [elements[0][room:], *elements[1:]]
        goes_on = elements[0] != b""
        elements = elements if goes_on else elements[1:]
        # Z Y W N and three reserved bits
        fields = [(int(begins_inside), 1), (int(goes_on), 1), (whole + 1, 2), (int(is_key and not out), 1), (0, 3)]
        out.append(joined(fields) + body)
    return out


def told(is_key):
    return f"Av1(Av1CodecExtra {{ is_keyframe: {flag(is_key)} }})"


def sizes():
    """Sizes of two, three and four bytes at their edges; many bytes are printed as three and their count."""
    yield "# AV1: sizes of two, three and four bytes at their edges", None
    yield "codec AV1", None
    for count in (0x3FFF, 0x4000, 0x1F_FFFF, 0x20_0000):
        whole, rest = divmod(count, 16)
        head = bytes([0x32]) + size(count)
        yield f"read 1030+{'00' * 16}:{whole}+00:{rest}", f"{head[:3].hex()}..({len(head) + count}) {told(False)}"


def encoded(path):
    """The units of an encoder, at a limit for each of them."""
    limits = iter((100, 20))
    for line in path.read_text().splitlines():
        if line.startswith("#"):
            yield line, None
            continue
        text, limit = bytes.fromhex(line), next(limits)
        is_key = any(kind == SEQUENCE_HEADER for kind, _ in units(text))
        spelled = " ".join(packet.hex() for packet in packets(text, limit)) + "*"
        yield "codec AV1", None
        yield f"pack {limit} {line}", spelled
        # The temporal delimiter, 1200, is not sent.
        yield f"read {spelled}", f"{line.removeprefix('1200')} {told(is_key)}"
