"""What `blocks` and `make` write for a piece of records or requests: the cases of both.

How much room the two buffers must have is not in the documents: it is the library's own rule.
"""
from vector_requests import *

BLOCKS = b"".join(DOC) + b"\xff" * 48
FIVE = b"".join([FIRST,
                 FIRST[:2] + b"\x01" + FIRST[3:],                                 # refusal 12
                 struct.pack("<BBBBIQQ", 6, 7, 0, 0, 100, 5, 0x3f00000000000001),
                 struct.pack("<BBBBIQQ", 3, 8, 0, 0, 100, 5, 1),                  # refusal 4
                 b"\xff" * REQUEST])                                              # refusal 1


def make(number, data, room, said_room):
    """None for no room, else the records, and the text for standard error."""
    most = len(data) // REQUEST + 1
    if room < 144 * most or said_room < 3 * most:
        return None
    out, said, at = [], "", 0
    while at < len(data) and number < U32:           # "No program of ours reads more than 4,294,967,295 records"
        try:
            out.append(record_of(*read_request(data[at:at + REQUEST])))
        except Refused as no:                        # "writes no record; its number goes to standard error"
            said += "%d\n" % no.number
        at += REQUEST
        number += 1
    return out, said


def text_of(text):
    return " " + text.replace("\n", "/") if text else ""


# ---------------------------------------------------------------- lines

def line_rows():
    """Number, bytes, and the room of each buffer; `blocks` asks for none in the second and leaves it alone."""
    rows = []
    for count in (0, 1, 143, 144, 145, 287, 288, 289, 431, 432, 433, 480):
        rows.append((9 if count in (1, 145, 432) else 0, count, 56 * (count // 144 + 1), 0))
    for count in (0, 143, 144, 287, 288, 431, 432, 480):
        rows.append((0, count, 56 * (count // 144 + 1) - 1, 0))
    rows += [(0, 0, 0, 0), (0, 432, 300, 0), (9, 480, 300, 0),
             (4294967293, 480, 224, 0), (4294967293, 145, 113, 0),
             (4294967294, 432, 224, 0), (4294967294, 1, 56, 0),
             (U32, 432, 224, 0), (U32, 432, 223, 0), (U32, 1, 60, 0)]
    # a second buffer
    rows += [(0, 0, 56, 3), (0, 143, 56, 1), (0, 432, 224, 12), (9, 480, 300, 24), (0, 432, 223, 12),
             (U32, 432, 224, 12)]
    return rows


def lines_of_pieces():
    out = []
    for number, count, room, said_room in line_rows():
        given = "lines number=%d bytes=%d room=%d" % (number, count, room)
        given += " said=%d" % said_room if said_room else ""
        text = lines(number, BLOCKS[:count], room)
        if text is None:
            got = "no room left=%d" % room + (" said left=%d" % said_room if said_room else "")
        else:
            assert len(text) <= room
            got = "length=%d left=%d" % (len(text), room - len(text))
            got += (" said length=0 left=%d" % said_room if said_room else "") + text_of(text)
        out.append(given + " -> " + got)
    return out


# ---------------------------------------------------------------- made

def made_rows():
    """Number, bytes, and the room of each buffer."""
    rows = []
    for count in (0, 1, 23, 24, 25, 47, 48, 71, 72, 73, 95, 96, 119, 120):
        rows.append((9 if count in (1, 25, 96) else 0, count, 144 * (count // 24 + 1), 3 * (count // 24 + 1)))
    # a byte less in one buffer
    for less, less_said in ((1, 0), (0, 1)):
        for count in (0, 23, 24, 48, 119, 120):
            rows.append((0, count, 144 * (count // 24 + 1) - less, 3 * (count // 24 + 1) - less_said))
    # less in both, none at all, more than is asked for
    rows += [(0, 48, 431, 8), (0, 0, 0, 0), (0, 48, 0, 9), (0, 48, 432, 0), (0, 24, 900, 24), (9, 120, 900, 24)]
    # the last numbers
    rows += [(4294967293, 120, 864, 18), (4294967293, 25, 288, 6),
             (4294967294, 120, 864, 18), (4294967294, 96, 720, 15), (4294967294, 1, 144, 3),
             (U32, 120, 864, 18), (U32, 1, 144, 3), (U32, 0, 144, 3), (U32, 120, 863, 18), (U32, 120, 864, 17)]
    return rows


def made():
    out = []
    for number, count, room, said_room in made_rows():
        came = make(number, FIVE[:count], room, said_room)
        if came is None:
            got = "no room left=%d" % room + (" said left=%d" % said_room if said_room else "")
        else:
            records, said = came
            length = sum(map(len, records))
            assert length <= room and len(said) <= said_room
            got = "length=%d left=%d" % (length, room - length)
            got += " said length=%d left=%d" % (len(said), said_room - len(said))
            got += "".join(" " + shown(raw) for raw in records) + text_of(said)
        out.append("made number=%d bytes=%d room=%d said=%d -> %s" % (number, count, room, said_room, got))
    return out
