#!/usr/bin/env python3
"""tell.py REQUESTS OURS THEIRS: compares the answers line by line. Exit status 1 where one differs."""
import sys
from collections import Counter

import columns

requests, ours, theirs = ([l.rstrip("\n") for l in open(f, encoding="utf-8")] for f in sys.argv[1:4])
if not len(requests) == len(ours) == len(theirs):
    print(f"{len(requests)} requests, {len(ours)} answers of ours, {len(theirs)} of the oracle")
    sys.exit(1)


def left_out(request, a, b):
    """Why answers that differ lie outside the compared domain; nothing where they lie inside. There ours must be what a
    reader of its own makes of the format, and the Rust's the same up to where it goes its own way."""
    name, kind = (request.split() + ["", ""])[:2]
    if name in ("rcol", "rcolx") and a != columns.answer(request):
        return None
    if b == "panic":
        return "the Rust has no answer"
    if name not in ("rcol", "rcolx"):
        return None
    told, theirs = a.split(), b.split()
    fault = next((k for k, word in enumerate(told) if word.startswith("fault:")), None)
    if fault is None:
        same, why = len(told) - 1, "flags that may all be false, asked for more" if (name, kind) == ("rcolx", "m") else None
    elif "fault:run too long" in a:
        same, why = fault, "a run is too long"
    else:
        same, why = fault + 1, "after the first fault" if name == "rcolx" else None
    return why if told[:same] == theirs[:same] else None


equal = 0
left = Counter()
differ = []
for request, a, b in zip(requests, ours, theirs):
    if a == b:
        equal += 1
    elif why := left_out(request, a, b):
        left[why] += 1
    else:
        differ.append((request, a, b))
print(f"{equal} equal, {left.total()} left out, {len(differ)} different")
for why, n in left.most_common():
    print(f"  left out: {n} {why}")
for request, a, b in differ[:10]:
    print(f"  {request}\n    ours   {a}\n    theirs {b}")
sys.exit(1 if differ else 0)
