#!/usr/bin/env python3
"""Says which functions of a crate are dear to prove, by the times of the files that `rt check --jobs 1` kept.

    tools/dear.py crates/NAME [HOW MANY]

Each file is written when its module is checked, so the time since the file before is what the module took. A function's
three dearest parts stand behind it: `Lts`, `Kinds` and `Tie` are the borrow checker's, `Goals` and `Proof` the search's. The check
has to be one of the whole crate, from nothing: remove `crates/NAME/out` first. Other work
on the machine makes these times longer, up to four times, and what `rt` took over from another checkout takes none: a
saving is shown by the processor's seconds of pairs of runs, and not by this.
"""
import collections
import os
import sys

if len(sys.argv) not in (2, 3) or sys.argv[1].startswith("-"):
    sys.exit(__doc__)
kept = []
for folder, _, names in os.walk(os.path.join(sys.argv[1], "out", "incremental")):
    for name in names:
        if name.endswith(".oantt"):
            kept.append((os.stat(os.path.join(folder, name)).st_mtime, name))
if not kept:
    sys.exit(f"{sys.argv[1]} has no kept files: run `rt check --jobs 1` in it")
kept.sort()
took = collections.Counter()
of_part = collections.defaultdict(collections.Counter)
for (before, _), (now, name) in zip(kept, kept[1:]):
    # Rattle-CRATE-proofs.MODULES.FUNCTION.PART.decls.oantt: parts and types begin with a capital, a function does not
    parts = name.split("-proofs.")[-1].removesuffix(".oantt").removesuffix(".decls").split(".")
    part = ""
    while parts and parts[-1][:1].isupper():
        part = parts.pop()
    function = ".".join(parts) or "all else"
    took[function] += now - before
    of_part[function][part] += now - before
whole = kept[-1][0] - kept[0][0]
print(f"{whole:.0f} s in all")
for function, seconds in took.most_common(int(sys.argv[2]) if len(sys.argv) == 3 else 20):
    dearest = ", ".join(f"{part} {time:.1f}" for part, time in of_part[function].most_common(3))
    print(f"{seconds:7.1f} s {100 * seconds / whole:5.1f} in 100  {function} ({dearest})")
