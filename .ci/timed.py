#!/usr/bin/env python3
"""Runs a command, and says at its end how much of the processor the proofs of each crate took.

    .ci/timed.py FILE COMMAND..

The provers are looked at every two seconds, so a shorter one may be missed. FILE gets a line for each crate and part (its proof, that of its
tests, its wrong bodies with the proof from which they start), the dearest first: minutes of a processor, part, crate. The ten dearest are
printed. The status is the command's.
"""

import os
import subprocess
import sys
import time

TICKS = os.sysconf("SC_CLK_TCK") * 60  # in a minute


def prover(process):
    """Returns which part of which crate a process proves, if it is a prover, and its ticks."""
    try:
        with open(f"/proc/{process}/cmdline", "rb") as file:
            words = file.read().decode(errors="replace").split("\0")
        if os.path.basename(words[0]) != "rattle" or "--crate-name" not in words:
            return None
        with open(f"/proc/{process}/stat") as file:
            times = file.read().rsplit(")", 1)[1].split()
    except (OSError, IndexError):
        return None
    crate = words[words.index("--crate-name") + 1]
    part = "tests" if "--test" in words else "wrong bodies" if words[1] == "check" else "proof"
    return (part, crate), int(times[11]) + int(times[12])


def main(report, command):
    seen = {}
    with subprocess.Popen(command) as running:
        while running.poll() is None:
            for process in filter(str.isdigit, os.listdir("/proc")):
                if found := prover(process):
                    seen[process, found[0]] = found[1]
            time.sleep(2)
    ticks = {}
    for (_, what), spent in seen.items():
        ticks[what] = ticks.get(what, 0) + spent
    lines = [f"{spent / TICKS:6.1f} {part}: {crate}" for (part, crate), spent in sorted(ticks.items(), key=lambda it: -it[1])]
    with open(report, "w") as file:
        file.write("".join(f"{line}\n" for line in lines))
    print(f"minutes of a processor, {sum(ticks.values()) / TICKS:.0f} in all; the dearest:")
    print("\n".join(lines[:10]), flush=True)
    return running.returncode


if __name__ == "__main__":
    sys.exit(main(sys.argv[1], sys.argv[2:]))
