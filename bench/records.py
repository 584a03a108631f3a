"""How many records a trace has: records.py TRACE."""
import sys


def number(data, at):
    value = shift = 0
    while data[at] & 128:
        value |= (data[at] & 127) << shift
        shift += 7
        at += 1
    return value | data[at] << shift, at + 1


def records(data):
    at, count = number(data, 0)[1], 0
    while at < len(data):
        at = number(data, number(data, at)[1])[1]
        size, at = number(data, at)
        at += size
        count += 1
    return count


if __name__ == "__main__":
    with open(sys.argv[1], "rb") as trace:
        print(records(trace.read()))
