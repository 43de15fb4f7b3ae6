#!/usr/bin/env python3
"""Where the time of the prover goes.

  bench/proof_times.py gate [COMMAND..]    runs a command, `rt ci` if none is given, and prints the processor time of the proofs,
                                           the edits and the tests of each crate, and the dearest edits
  bench/proof_times.py crate FOLDER        prints the time of each function of a crate. FOLDER is where a check with one job kept
                                           what it proved, from nothing:

      cd crates/NAME && rm -rf out/incremental && rt check --jobs 1 && ../../bench/proof_times.py crate out/incremental

The first looks at the running processes twice a second, so up to half a second of each is not seen. The second takes the times at
which the files of the prover's modules were written: a module's time is that between its file and the one before it.
"""
import collections
import os
import re
import subprocess
import sys
import time

MOST = 25


def processes():
    """Yields the words, the start and the seconds of each running `rattle`, those of its ended children included."""
    for pid in filter(str.isdigit, os.listdir("/proc")):
        try:
            with open(f"/proc/{pid}/cmdline", "rb") as it:
                words = it.read().decode(errors="replace").split("\0")
            with open(f"/proc/{pid}/stat", encoding="utf-8", errors="replace") as it:
                fields = it.read().rpartition(")")[2].split()
        except OSError:
            continue
        if os.path.basename(words[0]) == "rattle" and len(words) > 1:
            yield words, (pid, fields[19]), sum(map(int, fields[11:15])) / os.sysconf("SC_CLK_TCK")


def work_of(words):
    """Returns the crate that a process works on, what it does there, and the number of its edit, if it tries one."""
    after = dict(zip(words, words[1:]))
    kept = re.search(r"/rt-edits-[^/]*/(seed|\d+)$", after.get("--incremental", ""))
    if kept:
        return after.get("--crate-name"), "edits", None if kept[1] == "seed" else int(kept[1])
    return after.get("--crate-name"), "tests" if "--test" in words else "proof", None


def watch(command):
    """Runs the command, and prints what the provers took meanwhile."""
    seen = {}
    running = subprocess.Popen(command)
    while running.poll() is None:
        for words, start, seconds in processes():
            if "--crate-name" in words:
                seen[start] = work_of(words), seconds
        time.sleep(0.5)
    parts, edits = collections.defaultdict(collections.Counter), collections.Counter()
    for (crate, part, number), seconds in seen.values():
        parts[crate][part] += seconds
        if number is not None:
            edits[crate, number] += seconds
    print("minutes of a processor; edits with the proof that they begin with")
    for crate, found in parts.items():
        print(f"{crate:18}", *(f"{part} {found[part] / 60:5.1f}" for part in ("proof", "edits", "tests")))
    print("all               ", *(f"{part} {sum(it[part] for it in parts.values()) / 60:5.1f}" for part in ("proof", "edits", "tests")))
    print("seconds of the dearest edits")
    for (crate, number), seconds in edits.most_common(MOST):
        print(f"{seconds:6.1f} {crate} {name_of(crate, number)}")
    return running.returncode


def name_of(crate, number):
    folder = f"crates/{crate}/must-fail"
    names = sorted(it for it in os.listdir(folder) if it.endswith(".edit")) if os.path.isdir(folder) else []
    return names[number] if number < len(names) else number


def modules(folder):
    """Returns the modules whose files stand below a folder, with the seconds of each."""
    files = []
    for at, _, names in os.walk(folder):
        files += [(os.stat(f"{at}/{it}").st_mtime_ns, it[: -len(".oantt")]) for it in names if it.endswith(".oantt") and ".decls." not in it]
    files.sort()
    return [(name, (end - begin) / 1e9) for (begin, _), (end, name) in zip(files, files[1:])]


def table(title, found):
    print(title)
    for name, seconds in found.most_common(MOST):
        print(f"{seconds:6.1f} {name}")


def show(folder):
    kinds, functions, single = collections.Counter(), collections.Counter(), collections.Counter()
    for name, seconds in modules(folder):
        above, _, kind = name.rpartition(".")
        kinds[kind] += seconds
        functions[above] += seconds
        single[name] += seconds
    table("seconds by kind of module", kinds)
    table("seconds by function", functions)
    table("seconds by module", single)


if __name__ == "__main__":
    if sys.argv[1:2] == ["gate"]:
        sys.exit(watch(sys.argv[2:] or ["rt", "ci"]))
    if sys.argv[1:2] == ["crate"] and len(sys.argv) == 3:
        sys.exit(show(sys.argv[2]))
    sys.exit(__doc__)
