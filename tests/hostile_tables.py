"""Tables of hostile input, with what an independent program says of it.

The program is the Python package `spdm_reference`, which is no part of this repository. With it on the path,

    python3 tests/hostile_tables.py

writes anew what stands in crates/spdm_vectors/stdin below the comments that name it, and in the same lines of stdout: each
message of a day (crates/spdm_cases/data/scripts/a_users_day.script) but CHUNK_SEND_ACK, whose end is free, each record of it
with its key, and messages of which a length is wrong, with the fault of each. The cases of hostile messages are in
crates/spdm_cases (tests/cases).

What each table promises of cut input is looked at here too, so that no table says what that program does not do.
"""
import pathlib

from spdm_reference import core as c
from spdm_reference.commands import run
from spdm_reference.script import parse_script
from spdm_reference.world import World

TOP = pathlib.Path(__file__).resolve().parent.parent
VECTORS = TOP / "crates/spdm_vectors"
DAY = TOP / "crates/spdm_cases/data/scripts/a_users_day.script"
ACK = 0x05


# ---------------------------------------------------------------- messages and records of a day


class Bodies:
    """The bodies of packets, gathered for each direction."""

    def __init__(self):
        self.open = {}

    def take(self, packet):
        pair, flags = packet[1:3], packet[3]
        body = (b"" if flags & 0x80 else self.open[pair]) + packet[4:]
        self.open[pair] = body
        return (bool(flags & 0x08), body) if flags & 0x40 else None


def day():
    """The messages of a day, each with its kind, and its records, each with its key, number and inner message."""
    sealed, keys, messages = [], {}, {}
    seal, schedule = c.seal, c.Schedule

    def seal_and_keep(key, session, number, inner, pad=b""):
        record = seal(key, session, number, inner, pad)
        sealed.append((key.secret, number, inner, record))
        return record

    class Kept(schedule):
        def hs_dirs(self):
            both = schedule.hs_dirs(self)
            keys[both[0].secret], keys[both[1].secret], keys["th1"] = "hq", "hr", self.th1
            return both

        def app_dirs(self, t2):
            request, response, th2 = schedule.app_dirs(self, t2)
            keys[request.secret], keys[response.secret], keys["th2"] = "aq", "ar", th2
            keys[request.newer().secret], keys[response.newer().secret] = "uq", "ur"
            return request, response, th2

    c.seal, c.Schedule = seal_and_keep, Kept
    config, entries = parse_script(DAY.read_bytes())
    world = World(config)
    for line, event in entries:
        world.step(line, event)
    c.seal, c.Schedule = seal, schedule
    large, bodies = {}, Bodies()

    def message(asks, text):
        kind = "q" if asks else "s" if text[1] == 0x66 else "r"
        if text[1] in (0x85, 0x06):
            number, size = c.num(text[4:6]), c.num(text[8:12])
            at = 16 if number == 0 else 12
            large[asks] = (b"" if number == 0 else large[asks]) + text[at : at + size]
            if text[2] & 1:
                message(asks, large[asks])
        if text[1] != ACK or asks:
            messages[kind, text] = None

    inner_of = {record: inner for _, _, inner, record in sealed}
    for packet in world.sent:
        whole = bodies.take(packet)
        if whole is None:
            continue
        asks, body = whole
        if body[0] == 5:
            message(asks, body[1:])
        elif inner_of[body[1:]][0] == 5:
            message(asks, inner_of[body[1:]][1:])
    records = {}
    for secret, number, inner, record in sealed:
        records[keys[secret], number, record, inner] = None
    return list(messages), list(records), keys["th1"], keys["th2"]


def read(kind, message):
    """What a reader says of a message, as a word: `-`, or the place and the part at fault."""
    try:
        if kind == "q":
            c.read_request(message, 32)
        else:
            c.read_response(message, 32, kind == "s")
    except c.Malformed as fault:
        return "%d:%s" % (fault.at, fault.part)
    return "-"


def cut_messages(messages):
    for kind, message in messages:
        assert read(kind, message) == "-", message.hex()
        for size in range(len(message)):
            assert read(kind, message[:size]) == "%d:end" % size, (message.hex(), size)
    return [("cut message %s %s" % (kind, message.hex()), "0 cut %d -" % len(message)) for kind, message in messages]


def cut_records(records, th1, th2):
    """Each record with its key and the hashes of the transcripts up to the answers to PSK_EXCHANGE and PSK_FINISH."""
    lines = []
    for key, number, record, inner in records:
        assert c.num(record[4:6]) == number
        asked = "cut record %s %s %s %s" % (key, th1.hex(), th2.hex(), record.hex())
        lines.append((asked, "0 Short - 26 WrongLength - %d %s" % (len(record), inner.hex())))
    return lines


# ---------------------------------------------------------------- wrong lengths

# The places and sizes of lengths and counts of a message, by its code; of chunks also by their number.
FIELDS = {
    0xE1: [(12, 4), (16, 4)],
    0xE3: [(2, 1), (4, 2), (28, 1), (29, 1), *[(33 + 4 * at, 1) for at in range(4)]],
    0xE6: [(6, 2), (8, 2), (10, 2)],
    0x04: [(5, 1)],
    0x61: [(12, 4), (16, 4)],
    0x63: [(2, 1), (4, 2), (32, 1), (33, 1), *[(37 + 4 * at, 1) for at in range(4)]],
    0x66: [(8, 2), (10, 2)],
}


def fields_of(message):
    if message[1] in (0x85, 0x06):
        return [(8, 4), (12, 4)] if message[4:6] == b"\0\0" else [(8, 4)]
    if message[1] == 0x60:
        length = c.num(message[5:8])
        blocks = [(10, 2), (13, 2)] if length else []
        return [(4, 1), (5, 3), *blocks, (8 + length + 32, 2)]
    return FIELDS[message[1]]


def variants(text, at, size):
    """With 0, with one more, and with 65,535, or the most that fits, in a field."""
    most = min(65535, 256**size - 1)
    number = c.num(text[at : at + size])
    return [text[:at] + c.le(new % 256**size, size) + text[at + size :] for new in (0, number + 1, most)]


def wrong_lengths():
    """What readers say of the messages of the places `LENGTHS`."""
    lines, known = [], set()
    for is_small, before, pumped in LENGTHS:
        packet = packet_at(is_small, before, pumped)
        message = packet[5:]
        if packet[4] == 6:
            continue
        known.add(message[1])
        kind = "q" if packet[1] == 8 else "r"
        for at, size in fields_of(message):
            told = "".join(read(kind, variant) + ";" for variant in variants(message, at, size))
            lines.append(("cut field %s %s %d %d" % (kind, message.hex(), at, size), told))
    assert known == {*FIELDS, 0x85, 0x06, 0x60}
    return lines


# ---------------------------------------------------------------- places of messages

SEED = "seed " + "0" * 64 + "\n"
KEY = "31323334353637383930313233343536"
WHOLE = SEED + "responder 8 1024 4096 1024 30 mhkc\nblock 1 1 0 aabb\nrequester 9 1024 4096 1024 0 hkc 71 %s -\nend\n" % KEY
SMALL = SEED + "responder 8 64 4096 1024 30 mhkc\nblock 1 1 0 aabb\nrequester 9 64 4096 1024 0 hkc 71 %s %s\nend\n" % (
    KEY, "5a" * 40)

CONNECT = "q1 connect\npump 6\n"
OPEN = CONNECT + "q1 open 0\npump 4\n"
CHUNKS = "q1 connect\npump 20\nq1 open 255\n"
# Events, behind which the packet that was sent last has a wrong length.
LENGTHS = [
    (False, "q1 connect\n", 2), (False, "q1 connect\n", 4), (False, CONNECT + "q1 open 0\n", 0), (True, CHUNKS, 0),
    (True, CHUNKS, 2), (False, "q1 connect\n", 1), (False, "q1 connect\n", 3), (False, "q1 connect\n", 5),
    (False, CONNECT + "q1 open 0\n", 1), (True, CHUNKS, 5), (True, CHUNKS, 7), (False, OPEN + "q1 measure - 255\n", 1),
    (False, OPEN + "q1 send 1 00\n", 0), (False, OPEN + "q1 send 1 00\n", 1),
]


def configuration(is_small):
    return SMALL if is_small else WHOLE


def sent(is_small, events):
    """The packets that a script sends."""
    (name, _, world) = run((configuration(is_small) + events).encode())
    assert name == "Done"
    return world.sent


def pump(count):
    return "pump %d\n" % count if count else ""


def packet_at(is_small, before, pumped):
    """The packet that was sent last behind events and so many packets that were given to their ends."""
    return sent(is_small, before + pump(pumped))[-1]


# ---------------------------------------------------------------- what is written


def write_lines(name, lines):
    """Puts what is asked and what comes of it below the comment that begins with a name."""
    asked, told = VECTORS / "stdin", VECTORS / "stdout"
    start, end = place_of(asked.read_text().splitlines(), name)
    for path, new in zip((asked, told), zip(*lines)):
        old = path.read_text().splitlines()
        path.write_text("\n".join([*old[:start], *new, *old[end:]]) + "\n")
    print(name, len(lines), "lines")


def place_of(lines, name):
    """The lines behind a comment, up to an empty one."""
    start = next(at for at, line in enumerate(lines) if line.startswith("# %s:" % name))
    while lines[start].startswith("#"):
        start += 1
    return start, next((at for at in range(start, len(lines)) if not lines[at]), len(lines))


def main():
    messages, records, th1, th2 = day()
    write_lines("cut_messages_are_malformed", cut_messages(messages))
    write_lines("cut_records_do_not_open", cut_records(records, th1, th2))
    write_lines("wrong_lengths_have_their_place", wrong_lengths())


if __name__ == "__main__":
    main()
