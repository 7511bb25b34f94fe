"""Prints the table of the least nanoseconds a call, from the files NAME.measured of a folder."""
import os
import sys

work, rounds, before, after, processors = sys.argv[1:6]


def least(name):
    """Of each measurement NAME K, the least nanoseconds a call. Its lines are NAME K NANOSECONDS CALLS, and what else follows."""
    found = {}
    for line in open(f"{work}/{name}.measured"):
        words = line.split()
        if len(words) < 4 or words[3] == "0":
            continue
        key = words[0], int(words[1])
        found[key] = min(found.get(key, float("inf")), int(words[2]) / int(words[3]))
    return found


def told(number, places=1):
    return "" if number is None else f"{number:.{places}f}"


def ratio(ours, other):
    return told(ours / other if ours and other else None, 2)


def shown(key):
    """Turns are measured by sixteens; some of these are enough."""
    return key[0] not in ("turn", "turn_bare", "turn_next", "turn_relaxed") or key[1] in (0, 64, 240)


# The C library, and the crate and the module over it, where they were measured.
others = {name: least(name) for name in ("c", "rust", "python") if os.path.exists(f"{work}/{name}.measured")}
ours, mutex, bare = (least(name) for name in ("tp_bench", "mutex", "bare"))
print(f"least of {rounds} rounds, nanoseconds a call; load {before} before and {after} after, {processors} processors")
print(f"{'':26}{'ours':>10}{'mutex':>10}{'bare':>10}{'ours/mutex':>12}{'ours/bare':>11}" + "".join(f"{name:>10}" for name in others))
for key in sorted(set(ours) | set(mutex) | set(bare)):
    if not shown(key):
        continue
    a, b, c = ours.get(key), mutex.get(key), bare.get(key)
    name = f"{key[0]} {key[1]}" if key[1] else key[0]
    line = (f"{name:26}{told(a):>10}{told(b):>10}{told(c):>10}{ratio(a, b):>12}{ratio(a, c):>11}"
          + "".join(f"{told(it.get(key)):>10}" for it in others.values()))
    print(line.rstrip())
