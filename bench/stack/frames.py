#!/usr/bin/env python3
"""The deepest stack of functions by their machine code: objdump -drw --no-show-raw-insn LIBRARY | bench/stack/frames.py MOST FUNCTION...

Each function's frame is what it pushes and takes from %rsp; large frames are taken in a loop, whose end %r11 tells. Nothing calls by pointer
and nothing recurses, so the deepest path is the most that any input takes. What memcpy, memmove and memset take comes on top. Status 1 where it is more than MOST.
"""
import re
import sys

frame, calls, name = {}, {}, None
for line in sys.stdin:
    if start := re.match(r"[0-9a-f]+ <(.*)>:$", line):
        name = start[1]
        frame[name], calls[name] = 0, set()
    elif code := re.match(r"\s+[0-9a-f]+:\s+(\S+)\s*(.*)", line):
        op, rest = code.groups()
        if op == "push":
            frame[name] += 8
        elif op == "sub" and (size := re.match(r"\$0x([0-9a-f]+),%(rsp|r11)$", rest)):
            frame[name] += int(size[1], 16) - (4096 if size[2] == "r11" else 0)
        elif op == "call" and "R_X86_64" not in rest or re.search(r",%rsp$", rest) and op not in ("sub", "add", "cmp"):
            sys.exit(f"frames.py: not understood in {name}: {line.strip()}")
        elif op in ("call", "jmp") and (goal := re.search(r"R_X86_64_\w+\s+(?:\.text\.)?(.*?)(?:[-+]0x\w+)?$", rest)):
            calls[name].add(goal[1])


def deepest(f, above=()):
    """(bytes, the way there) from the call of f on"""
    if f in above:
        sys.exit(f"frames.py: {f} recurses")
    below = max((deepest(g, (*above, f)) for g in calls.get(f, ())), default=(0, []))
    return 8 + frame.get(f, 0) + below[0], [f, *below[1]]


if not sys.argv[2:] or not sys.argv[1].isdigit() or not frame:
    sys.exit(__doc__)
for f in sys.argv[2:]:
    if f not in frame:
        sys.exit(f"frames.py: there is no function {f}")
    size, way = deepest(f)
    print(f"{size:8} bytes of frames at most: {', '.join(way)}")
    if size > int(sys.argv[1]):
        sys.exit(f"frames.py: that is more than {sys.argv[1]}")
