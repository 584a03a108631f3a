"""The file of counts: WHAT NAME SIZE full|empty|stack NUMBER [NUMBER]."""


def load(path):
    counts = {}
    with open(path) as lines:
        for line in lines:
            what, name, size, kind, *numbers = line.split()
            counts[what, name, int(size), kind] = [int(n) for n in numbers]
    return counts


# Which empty call is taken off which count.
EMPTY = {
    "read": ("read", "ping", 0),
    "unpack": ("read", "ping", 0),
    "check": ("read", "ping", 0),
    "form": ("read", "ping", 0),
    "write": ("write", "detRsp", 0),
    "sbuffer": ("write", "detRsp", 0),
    "fixed": ("write", "detRsp", 0),
    "uplink": ("uplink", "rows", 100),
    "arrive": ("arrive", "ping", 0),
    "begin": ("begin", "ping", 0),
    "lost": ("lost", "open", 0),
    "add": ("add", "least", 0),
    "add_c": ("add", "least", 0),
    "cancel": ("cancel", "least", 1),
    "cancel_c": ("cancel", "least", 1),
    "choose": ("choose", "least", 1),
    "choose_c": ("choose", "least", 1),
    "sound": ("sound", "least", 0),
    "record": ("record", "ping", 0),
    "record_c": ("record", "ping", 0),
    "recorded": ("recorded", "ping", 0),
    "recorded_c": ("recorded", "ping", 0),
    "frame": ("frame", "rows", 1),
    "stream": ("stream", "rows", 1),
}


def empty(counts, what):
    return counts[(*EMPTY[what], "empty")][0]


def cost(counts, what, name, size):
    """Instructions a call without the empty call; None if it wasn't counted."""
    found = counts.get((what, name, size, "full"))
    return None if found is None else found[0] - empty(counts, what)
