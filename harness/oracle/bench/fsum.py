# Times math.fsum for the program bench. A line `list WORDS` gives the list and is answered by the bits of its sum, or by `none` where fsum
# raises; a line `time CALLS` is answered by the nanoseconds of so many calls.
import struct
import sys
from math import fsum
from time import perf_counter_ns

values = []


def bits():
    try:
        return struct.pack(">d", fsum(values)).hex()
    except OverflowError:
        return "none"


def nanoseconds(calls):
    start = perf_counter_ns()
    for _ in range(calls):
        fsum(values)
    return perf_counter_ns() - start


for line in sys.stdin:
    command, *rest = line.split()
    if command == "list":
        values = [struct.unpack(">d", bytes.fromhex(word))[0] for word in rest]
        print(bits(), flush=True)
    else:
        print(nanoseconds(int(rest[0])), flush=True)
