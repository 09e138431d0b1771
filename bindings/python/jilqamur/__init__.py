"""The media path of WebRTC for test benches: RTP headers, replay windows, packetizers and depacketizers, ends that
exchange offers and answers, send samples and receive units, and forwarding by packets, over a proved library. It opens
no socket and encrypts nothing.

    from jilqamur import End, Row, Section
    a = End([Row(111, "opus", 48000, channels=2)], session=1)
    b = End([Row(111, "opus", 48000, channels=2)], session=2)
    answer = b.answer(a.offer([Section("0", False, ssrcs=[44])]), [Section("0", False, ssrcs=[45])])
    a.accept(answer)

`libjilqamur.so.0` is taken from this folder, from the system, or from the file that `JILQAMUR_LIBRARY` names. Any
thread may call any object: a call waits for another one on the same object, and objects share nothing. A call that
can't be done raises: `Refused` if the library refuses it, also at a closed object; `OverflowError` for a number that
doesn't fit its field, and `TypeError` for what isn't of the kind that is wanted.
"""

from .codes import Code, Place, Refused
from .ends import End
from .library import VERSION
from .sections import (AgreedSection, Arrival, Direction, Remote, Section, SectionRequest, Setup, Taken, Verdict)
from .nacks import NackRequester, PacketHistory
from .streams import Depacketizer, Forwarder, Packet, Packetizer, Placed, Receiver, Sender, Window
from .structs import ExtensionIds, Header
from .values import (EXTENSIONS, MAX_HELD, MIN_HELD, Event, FaultyLine, Format, LineFault, Names, PacketInfo, Row, Unit,
                     Values, faulty_line, packet_info, payload_of, read_header, read_values, widen, write_header)

__version__ = VERSION

__all__ = [
    "AgreedSection", "Arrival", "Code", "Depacketizer", "Direction", "EXTENSIONS", "End", "Event", "ExtensionIds",
    "FaultyLine", "Format", "Forwarder", "Header", "LineFault", "MAX_HELD", "MIN_HELD", "NackRequester", "Names",
    "Packet", "PacketHistory", "PacketInfo", "Packetizer", "Place", "Placed", "Receiver", "Refused", "Remote", "Row",
    "Section", "SectionRequest", "Sender", "Setup", "Taken", "Unit", "Values", "Verdict", "Window", "faulty_line",
    "packet_info", "payload_of", "read_header", "read_values", "widen", "write_header",
]
