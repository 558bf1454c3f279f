#!/usr/bin/env python3
"""What the gate costs: processor minutes of the prover, crate by crate, for proofs, proofs of tests, and edits.

    python3 bench/gate_cost.py            runs `rt ci --anew` at the top of the repository and measures it
    python3 bench/gate_cost.py --of PID   measures the `rt ci` that runs already, from now to its end

Every second it reads the processor time of each prover below that process, from /proc. So it needs Linux, and a prover
that lives for less than a second may be missed. A run that is cut off prints what it has seen.
"""

import os
import signal
import subprocess
import sys
import time

TICKS = os.sysconf("SC_CLK_TCK")
KINDS = ["proofs", "tests", "edits"]


def read_process(pid):
    """Parent, processor seconds, words and folder of a process, or None where it is gone."""
    try:
        with open(f"/proc/{pid}/stat", encoding="utf8") as file:
            fields = file.read().rsplit(")", 1)[1].split()
        with open(f"/proc/{pid}/cmdline", encoding="utf8") as file:
            words = file.read().split("\0")
        folder = os.readlink(f"/proc/{pid}/cwd")
    except OSError:
        return None
    return int(fields[1]), (int(fields[11]) + int(fields[12])) / TICKS, words, folder


def part_of(words, folder):
    """The crate and the kind of a prover's work, or None of any other process."""
    if not os.path.basename(words[0]).startswith("rattle") or "--crate-name" not in words:
        return None
    crate = words[words.index("--crate-name") + 1]
    if os.path.basename(folder).startswith("rt-edit-"):
        return crate, "edits"
    if "--test" in words:
        return crate, "tests"
    return crate, "proofs"


def is_below(pid, top, parents):
    while pid in parents:
        if pid == top:
            return True
        pid = parents[pid]
    return False


def sample(top, seconds):
    processes = {}
    for entry in os.listdir("/proc"):
        if entry.isdigit():
            found = read_process(int(entry))
            if found is not None:
                processes[int(entry)] = found
    parents = {pid: found[0] for pid, found in processes.items()}
    for pid, (_, spent, words, folder) in processes.items():
        part = part_of(words, folder)
        if part is not None and is_below(pid, top, parents):
            seconds[(pid, part)] = spent
    return top in processes


def print_costs(seconds):
    sums = {}
    for (_, part), spent in seconds.items():
        sums[part] = sums.get(part, 0) + spent
    crates = sorted({crate for crate, _ in sums})
    print("processor minutes of the prover")
    print("| crate | " + " | ".join(KINDS) + " | all |")
    print("|---|" + "---|" * (len(KINDS) + 1))
    for crate in crates + ["all"]:
        of = [crate] if crate != "all" else crates
        minutes = [sum(sums.get((name, kind), 0) for name in of) / 60 for kind in KINDS]
        cells = [f"{m:.1f}" for m in minutes + [sum(minutes)]]
        print(f"| {crate} | " + " | ".join(cells) + " |")


def watch(seconds):
    """Samples a gate to its end, and gives its exit status."""
    if sys.argv[1:2] == ["--of"]:
        while sample(int(sys.argv[2]), seconds):
            time.sleep(1)
        return 0
    gate = subprocess.Popen(["rt", "ci", "--anew"])
    while gate.poll() is None:
        sample(gate.pid, seconds)
        time.sleep(1)
    return gate.returncode


def main():
    signal.signal(signal.SIGTERM, lambda *_: sys.exit(1))
    seconds = {}
    try:
        sys.exit(watch(seconds))
    finally:
        print_costs(seconds)


if __name__ == "__main__":
    main()
