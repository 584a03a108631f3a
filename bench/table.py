"""Prints the tables in Markdown: table.py COUNTS MACHINE."""
import sys

from counts import cost, empty, load

FRAMES = 16  # in the stream
READS = [
    ("ping", "ping", 0),
    ("con", "con", 0),
    ("ulData, 40 bytes of user data", "ulData", 40),
    ("the same, signal figures as float 32", "singles", 40),
    ("the same, signal figures as integers", "wholes", 40),
    ("ulData, 245 bytes of user data", "ulData", 245),
    ("dlDataQue, one entry of 20 bytes", "downlink", 20),
    ("dlDataQue, 16 entries of 50 bytes", "downlinks", 16),
    ("ping with 500 unknown pairs", "pairs", 500),
    ("ping with nested maps, eight levels", "maps", 4),
]
WRITES = [
    ("detRsp", "detRsp", 0),
    ("conRsp", "conRsp", 0),
    ("ulData, 40 bytes of user data", "ulData", 40),
    ("ulData, 245 bytes of user data", "ulData", 245),
    ("dlDataQue, one entry of 20 bytes", "downlink", 20),
    ("dlDataQue, 16 entries of 50 bytes", "downlinks", 16),
]
STEPS = [
    ("chz_arrive, ping", "arrive", "ping", 0),
    ("chz_arrive, ulData with 40 bytes", "arrive", "ulData", 40),
    ("chz_arrive, con that begins a session anew", "arrive", "con", 0),
    ("chz_arrive, con that resumes", "arrive", "resume", 0),
    ("chz_begin, ping", "begin", "ping", 0),
    ("chz_begin, attPrp", "begin", "attPrp", 0),
    ("chz_begin, dlDataQue with an entry of 20 bytes", "begin", "downlink", 20),
    ("chz_begin, dlDataQue with 16 entries of 50 bytes", "begin", "downlinks", 16),
    ("chz_lost, an open session", "lost", "open", 0),
]
FRAME = ("chz_frame, ulData with 40 bytes", "frame", "rows", 1)
QUEUES = [
    ("chz_add, one entry of 20 bytes", "add", "least", (0, 31)),
    ("chz_add, 16 entries of 50 bytes", "add", "great", (0, 31)),
    ("chz_add, refused 28", "add", "least", (32,)),
    ("chz_cancel, the last", "cancel", "least", (1, 32)),
    ("chz_choose, the last, one entry each", "choose", "least", (1, 32)),
    ("chz_choose, the last, 16 counters each", "choose", "great", (1, 32)),
    ("chz_choose, refused 30", "choose", "others", (32,)),
    ("chz_sound, one entry of 20 bytes each", "sound", "least", (0, 32)),
    ("chz_sound, 16 entries of 50 bytes each", "sound", "great", (32,)),
]
TRACES = [
    ("ping", "ping", 0),
    ("ulData with 40 bytes", "ulData", 40),
    ("ulData with 245 bytes", "ulData", 245),
]
STACKS = [
    FRAME,
    ("chz_form, con", "form", "con", 0),
    ("chz_form, ulData with 245 bytes", "form", "ulData", 245),
    ("chz_form, ping nested eight levels deep", "form", "nested", 6),
    ("chz_read, con", "read", "con", 0),
    ("chz_read, ulData with 245 bytes", "read", "ulData", 245),
    ("chz_read, ping nested eight levels deep", "read", "nested", 6),
    ("chz_read, dlDataQue with 16 entries of 50 bytes", "read", "downlinks", 16),
    ("chz_write, detRsp", "write", "detRsp", 0),
    ("chz_write, conRsp", "write", "conRsp", 0),
    ("chz_write, ulData with 40 bytes", "write", "ulData", 40),
    ("chz_write, ulData with 245 bytes", "write", "ulData", 245),
    ("chz_write, dlDataQue with 16 entries of 50 bytes", "write", "downlinks", 16),
    *STEPS,
    ("chz_add, 16 entries of 50 bytes, 31 wait", "add", "great", 31),
    ("chz_cancel, 32 wait", "cancel", "least", 32),
    ("chz_choose, 32 wait with 16 counters each", "choose", "great", 32),
    ("chz_sound, 32 wait with 16 entries of 50 bytes each", "sound", "great", 32),
    ("chz_uplink, 1,000 rows", "uplink", "rows", 1000),
    ("chz_record, ulData with 245 bytes", "record", "ulData", 245),
    ("chz_recorded, ulData with 245 bytes", "recorded", "ulData", 245),
]
HAVE_ROOM = ("write", "arrive", "begin")
GROWTH = [
    ("reading: a byte of user data", "ulData", ("read", "unpack", "check"), 0, 245),
    ("reading: an unknown pair", "pairs", ("read", "unpack", "check"), 0, 500),
    ("writing: a byte of user data", "ulData", ("write", "fixed"), 40, 245),
    ("reading: a counter and its data entry of 50 bytes", "downlinks", ("read", "unpack", "check"), 1, 16),
    ("writing: a counter and its data entry of 50 bytes", "downlinks", ("write", "fixed"), 1, 16),
]


def number(n):
    if n is None:
        return ""
    return f"{n:,.2f}" if isinstance(n, float) else f"{n:,}"


def table(head, rows):
    print("| " + " | ".join(head) + " |")
    print("|---" + "|---:" * (len(head) - 1) + "|")
    for row in rows:
        print("| " + " | ".join([row[0]] + [number(n) for n in row[1:]]) + " |")
    print()


def reads(counts):
    print("### Reading a payload\n")
    rows = []
    for label, name, size in READS:
        length, elements = counts["size", name, size, "full"]
        costs = [cost(counts, what, name, size) for what in ("form", "check", "read", "unpack")]
        rows.append([label, length, elements] + costs)
    table(["payload", "bytes", "elements", "chz_form", "msgpuck mp_check", "chz_read", "msgpack-c unpack"], rows)


def writes(counts):
    print("### Writing a frame\n")
    rows = []
    for label, name, size in WRITES:
        costs = [cost(counts, what, name, size) for what in ("write", "fixed", "sbuffer")]
        rows.append([label, counts["framed", name, size, "full"][0]] + costs)
    table(["message", "frame bytes", "chz_write", "msgpack-c, fixed buffer", "msgpack-c, sbuffer used again"], rows)


def tables(counts):
    print("### Crediting a packet, the meter in the last row\n")
    rows = []
    for size in (100, 1000, 10000, 38000):
        found = cost(counts, "uplink", "rows", size)
        rows.append([f"{size:,}", found, found / size])
    table(["rows", "chz_uplink", "a row"], rows)


def sessions(counts):
    print("### Session and stream\n")
    table(["call", "instructions"], [[label, cost(counts, *call)] for label, *call in (FRAME, *STEPS)] + [
        ["a frame of the stream, table of 1 row", round(cost(counts, "stream", "rows", 1) / FRAMES)],
        ["a frame of the stream, table of 1,000 rows", round(cost(counts, "stream", "rows", 1000) / FRAMES)],
    ])


def queues(counts):
    print("### Downlink queue\n")
    rows = []
    for label, what, name, sizes in QUEUES:
        rows += [[label, size, cost(counts, what, name, size), cost_c(counts, what, name, size)] for size in sizes]
    table(["call", "entries that wait", "library", "plain C"], rows)


def traces(counts):
    print("### Traces\n")
    rows = []
    for what in ("record", "recorded"):
        for label, name, size in TRACES:
            rows.append([f"chz_{what}, {label}", cost(counts, what, name, size), cost(counts, what + "_c", name, size)])
    table(["call", "library", "plain C"], rows)
    whole, records = counts["replay", "day", 0, "full"]
    print(f"The program `replay` over the day in tests/replay/day: {whole:,} instructions for {records} records, {round(whole / records):,} a record, "
          "what is read and printed included; a run over a trace without records is taken off.\n")


def cost_c(counts, what, name, size):
    return None if what == "sound" else cost(counts, what + "_c", name, size)


def stacks(counts):
    print("### Stack\n")
    rows = []
    for label, *call in STACKS:
        deep, deep_short = counts[(*call, "stack")]
        rows.append([label, deep, deep_short if call[0] in HAVE_ROOM else None])
    table(["call", "bytes of stack", "with a room just long enough"], rows)


def slope(counts, what, name, first, last):
    ends = [cost(counts, what, name, size) for size in (first, last)]
    return None if None in ends else (ends[1] - ends[0]) / (last - first)


def bend(counts, what, name, first, last):
    """The most that a count lies off the straight line through the two ends, in hundredths of the count."""
    rise, start = slope(counts, what, name, first, last), cost(counts, what, name, first)
    most = 0.0
    for w, n, size, kind in counts:
        if (w, n, kind) == (what, name, "full"):
            found = cost(counts, what, name, size)
            most = max(most, 100 * abs(found - start - rise * (size - first)) / found)
    return most


def growth(counts):
    print("### Growth: instructions for one more\n")
    rows = []
    for label, name, whats, first, last in GROWTH:
        found = [slope(counts, what, name, first, last) for what in whats]
        rows.append([label] + (found + [None])[:3])
    rows.append(["crediting: a row", slope(counts, "uplink", "rows", 100, 38000), None, None])
    rows.append(["choosing: an entry that waits", slope(counts, "choose", "least", 1, 32), None, None])
    rows.append(["choosing: an entry that waits, with 16 counters", slope(counts, "choose", "great", 1, 32), None, None])
    table(["one more", "library", "msgpack-c (unpack; fixed buffer)", "msgpuck mp_check"], rows)
    bends = [bend(counts, "read", "ulData", 0, 245), bend(counts, "read", "pairs", 0, 500), bend(counts, "read", "downlinks", 1, 16),
             bend(counts, "uplink", "rows", 100, 38000), bend(counts, "choose", "least", 1, 32)]
    print("The library's counts between the ends lie off the straight line by at most {:.1f} % (user data), {:.1f} % (pairs), "
          "{:.1f} % (data entries), {:.1f} % (rows) and {:.1f} % (entries that wait).\n".format(*bends))


def empties(counts):
    print("Taken off, the round with an empty call of the same shape: " + ", ".join(
        f"{label} {empty(counts, what)}" for label, what in
        [("reading", "read"), ("writing", "write"), ("crediting", "uplink"), ("chz_arrive", "arrive"), ("chz_begin", "begin"),
         ("chz_lost", "lost"), ("chz_add", "add"), ("chz_cancel", "cancel"), ("chz_choose", "choose"), ("chz_sound", "sound"), ("chz_record", "record"), ("chz_recorded", "recorded")]) +
        f"; the stream's 16 frames together {empty(counts, 'stream')}.\n")


def main():
    counts = load(sys.argv[1])
    with open(sys.argv[2]) as lines:
        for line in lines:
            print("- " + line.rstrip())
    print()
    for part in (reads, writes, tables, sessions, queues, traces, growth, empties, stacks):
        part(counts)


main()
