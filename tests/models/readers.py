"""What a receiver gets of payloads one after the other, by the layouts of the standards: the bytes that each gives, or
a fault, and what of a unit or part stays open behind it."""

import av1
import h26x
import payloads
from payloads import joined


class Fault(Exception):
    """A payload that isn't of the format."""


class Bits:
    """Fields of a payload, one behind the other, with the most significant bit first."""

    def __init__(self, payload):
        self.text = "".join(f"{byte:08b}" for byte in payload)

    def take(self, width):
        """The next field; a fault where it passes the end."""
        if width > len(self.text):
            raise Fault
        taken, self.text = self.text[:width], self.text[width:]
        return int(taken or "0", 2)

    def flags(self, count):
        return [self.take(1) for _ in range(count)]

    def bytes(self):
        """What is left, which is whole bytes, and one at least."""
        if not self.text:
            raise Fault
        return joined([(int(bit), 1) for bit in self.text])


class Audio:
    """Each payload is a unit: of Opus, G.711, G.722 and comfort noise its bytes."""

    def __init__(self, case):
        self.case, self.open = case, None

    def head(self, payload):
        return True

    def tail(self, marker):
        return True

    def read(self, payload):
        return payload


class Events(Audio):
    """The first of several reports, with R clear (RFC 4733 2.3)."""

    def read(self, payload):
        if len(payload) % 4:
            raise Fault
        return bytes([payload[0], payload[1] & 0xBF]) + payload[2:4]


class AmrWb(Audio):
    """A mode request, the table of contents, and the speech of each entry (RFC 4867 4.3.1, 4.4)."""

    def read(self, payload):
        bits, aligned = Bits(payload), "octet-align=1" in self.case.fmtp
        bits.take(8 if aligned else 4)
        entries, follows = [], 1
        while follows:
            follows, kind, quality = bits.take(1), bits.take(4), bits.take(1)
            entries.append((kind, quality))
            bits.take(2 if aligned else 0)
        out = b""
        for kind, quality in entries:
            if kind not in payloads.AMR_WB_BITS:
                raise Fault
            size = payloads.AMR_WB_BITS[kind]
            speech = [(bit, 1) for bit in bits.flags(size)]
            bits.take(-size % 8 if aligned else 0)
            out += joined([(0, 1), (kind, 4), (quality, 1), (0, 2)]) + joined(speech)
        return out


class Vp8(Audio):
    """A frame begins with S, and what stands behind the descriptor is of it (RFC 7741 4.2)."""

    def head(self, payload):
        return payload[0] & 16 > 0

    def tail(self, marker):
        return marker

    def read(self, payload):
        bits = Bits(payload)
        extended = bits.take(8) >> 7
        picture, tl0, tid, key = bits.flags(8)[:4] if extended else (0, 0, 0, 0)
        if picture:
            bits.take(15 if bits.take(1) else 7)
        bits.take(8 * tl0 + 8 * (tid or key))
        return bits.bytes()


class Vp9(Vp8):
    """A frame begins with B (RFC 9628 4.2)."""

    def head(self, payload):
        return payload[0] & 8 > 0

    def read(self, payload):
        bits = Bits(payload)
        picture, predicted, layer, flexible, _, _, structure, _ = bits.flags(8)
        if picture:
            bits.take(15 if bits.take(1) else 7)
        if layer:
            bits.take(8 if flexible else 16)
        if predicted and flexible:
            follows = [bits.take(8) & 1]
            while follows[-1] and len(follows) < 3:
                follows.append(bits.take(8) & 1)
            if follows[-1]:
                raise Fault
        if structure:
            self.pass_structure(bits)
        return bits.bytes()

    @staticmethod
    def pass_structure(bits):
        layers, sized, grouped, _ = bits.take(3) + 1, bits.take(1), bits.take(1), bits.take(3)
        bits.take(32 * layers * sized)
        for _ in range(bits.take(8) if grouped else 0):
            bits.take(4)
            references = bits.take(2)
            bits.take(2 + 8 * references)


class Av1(Vp8):
    """Elements of units, of which the first goes on with Z, and the last goes on in the next packet with Y (RTP payload
    format for AV1, 4.4 and 4.5)."""

    def head(self, payload):
        return payload[0] & 128 == 0

    def read(self, payload):
        if len(payload) < 2:
            raise Fault
        goes_on, cut, count = payload[0] >> 7, payload[0] >> 6 & 1, payload[0] >> 4 & 3
        elements, still_open = self.elements(payload[1:], count), None
        if goes_on:
            first = elements.pop(0)
            if self.open is not None and first:
                elements.insert(0, self.open + first)
            else:
                still_open = self.open
        if cut and elements:
            still_open = elements.pop() or still_open
        out = b"".join(self.unit(element) for element in elements if element)
        self.open = still_open
        return out

    @staticmethod
    def sized(text):
        """What stands behind a size, and the rest."""
        count = next((i for i, byte in enumerate(text[:8], 1) if byte < 128), None)
        if count is None:
            raise Fault
        end = count + sum((byte & 127) << 7 * i for i, byte in enumerate(text[:count]))
        if end > len(text):
            raise Fault
        return text[count:end], text[end:]

    def elements(self, text, count):
        out = []
        while text if count == 0 else len(out) < count - 1:
            part, text = self.sized(text)
            out.append(part)
        return out + [text] * (count > 0)

    def unit(self, text):
        """The unit that an element is, with its size; nothing of those that aren't sent."""
        head = 2 if text[0] & 4 else 1
        if len(text) < head:
            raise Fault
        body = text[head:]
        if text[0] & 2:
            body, rest = self.sized(body)
            if rest:
                raise Fault
        if text[0] >> 3 & 15 in av1.UNSENT:
            return b""
        return bytes([text[0] | 2]) + text[1:head] + av1.size(len(body)) + body


class H26x(Vp8):
    """Units behind start codes: alone, in aggregates, and in fragments, of which one with S begins a unit and one with
    E ends it (RFC 6184 5.6 to 5.8, RFC 7798 4.4, RFC 9328 4.3)."""

    def __init__(self, case):
        super().__init__(case)
        self.codec = {"H264": h26x.H264, "H265": h26x.H265, "H266": h26x.H266}[case.codec]
        self.numbered = "sprop-max-don-diff" in case.fmtp

    def kind(self, payload):
        return self.codec.fields(payload.ljust(2, b"\0"))["type"]

    def head(self, payload):
        size = self.codec.size
        return self.kind(payload) != self.codec.fragment or payload[size : size + 1] >= b"\x80"

    def read(self, payload):
        kind, size = self.kind(payload), self.codec.size
        is_h264 = self.codec is h26x.H264
        if len(payload) < size or (payload[0] > 127 and not is_h264):
            raise Fault
        if kind == self.codec.aggregate:
            return self.aggregated(payload[size:])
        if kind == self.codec.fragment:
            return self.fragment(payload)
        if kind > self.codec.fragment - 2 or is_h264 and kind not in range(1, 24):
            raise Fault
        body = payload[size + 2 * self.numbered :]
        if not is_h264 and not body:
            raise Fault
        return h26x.START + payload[:size] + body

    def aggregated(self, text):
        """DONL before the first size, and of H.265 DOND before each later one."""
        out, before = b"", 2 * self.numbered
        while text:
            text = text[before:]
            size = int.from_bytes(text[:2], "big")
            if len(text) < 2 + size:
                raise Fault
            out, text = out + h26x.START + text[2 : 2 + size], text[2 + size :]
            before = int(self.numbered and self.codec is h26x.H265)
        return out

    def fragment(self, payload):
        size = self.codec.size
        if len(payload) <= size:
            raise Fault
        start, end = payload[size] >> 7, payload[size] >> 6 & 1
        number = 2 * (self.numbered and start)
        if len(payload) < size + 1 + number:
            raise Fault
        part, still_open = payload[size + 1 + number :], self.open
        if start:
            still_open = h26x.START + self.begun(payload) + part
        elif still_open is not None:
            still_open += part
        self.open = None if end else still_open
        return (still_open or b"") if end else b""

    def begun(self, payload):
        """The header of the unit: that of the packet with the fragment's type."""
        if self.codec is h26x.H264:
            return bytes([payload[0] & 0xE0 | payload[1] & 31])
        if self.codec is h26x.H265:
            return bytes([payload[0] & 0x81 | (payload[2] & 63) << 1, payload[1]])
        return bytes([payload[0], (payload[2] & 31) << 3 | payload[1] & 7])


READERS = {"AMR-WB": AmrWb, "telephone-event": Events, "VP8": Vp8, "VP9": Vp9, "AV1": Av1,
           "H264": H26x, "H265": H26x, "H266": H26x}
