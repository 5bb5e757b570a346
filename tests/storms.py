#!/usr/bin/env python3
"""Storms of interrupts: eight devices that raise one line, every line, or lines between stores to ports, as fast as they
can, beside the slices of `live` and beside the observers of `watch` too. Each audit must add up and tell what its plant
raises, and the tape must have what was taken; the sums of all audits are printed.

Usage: storms.py TIMES [CHECKER ..], by hand: each storm so many times. Where a checker is named, as by
storms.py 1 valgrind --tool=drd --error-exitcode=99, the storms are short and those of `live` alone: such a checker takes
each value that `watch` hands over by an atomic step for a race."""
import os
import subprocess
import sys
import tempfile

sys.dont_write_bytecode = True

from commands.live import AUDIT_LINE, PREEMPTED, wrong_audit, wrong_tape
from shared import program, read, write

SLICES, LENGTH, RAISES, RAISES_CHECKED = 1000, 10, 131072, 128
LIVE = ["live", "i", "p", "d", f"--slices={SLICES}", f"--len={LENGTH}", "--tape=t"]
WATCH = ["watch", "i", "p", "seen", f"--slices={SLICES}", f"--len={LENGTH}", "--observers=4", "--looks=1000"]


def plants(raises):
    """The plants by name, whose devices raise lines so often each."""
    devices, numbers = "".join(f"device {number}\n" for number in range(8)), range(8)
    every = [f"raise {number} {line} {raises // 16}\n" for line in range(16) for number in numbers]
    mixed = [f"set {number} {turn % 4} {turn}\nraise {number} {turn % 3} {raises // 64}\n" for turn in range(64) for number in numbers]
    return {
        "one line": devices + "".join(f"raise {number} 1 {raises}\n" for number in numbers),
        "every line": devices + "".join(every),
        "lines and ports": devices + "".join(mixed),
    }


def storm(folder, words, devices, checker):
    """One storm: its audit's sums, and what was wrong."""
    plant = "tmplant 1\n" + devices
    write(os.path.join(folder, "i"), PREEMPTED.encode())
    write(os.path.join(folder, "p"), plant.encode())
    ended = subprocess.run([*checker, program, *words], cwd=folder, capture_output=True)
    if ended.returncode or (ended.stderr and not checker):
        return [], [f"{ended.returncode}: {ended.stderr[-2000:].decode()}"]
    masks, wrong = None, []
    if words is LIVE:
        masks, wrong = wrong_tape(read(os.path.join(folder, "t")).decode(), plant, SLICES, LENGTH)
    audit = ended.stdout.decode()
    lines = [AUDIT_LINE.fullmatch(line).groups()[1:] for line in audit.splitlines()[1:]]
    return [sum(map(int, column)) for column in zip(*lines)], wrong + wrong_audit(audit, plant, SLICES, masks)


def main():
    times, checker = int(sys.argv[1]), sys.argv[2:]
    sums, count, wrong = [0] * 4, 0, []
    for name, devices in plants(RAISES_CHECKED if checker else RAISES).items():
        for words in (LIVE,) if checker else (LIVE, WATCH):
            for _ in range(times):
                with tempfile.TemporaryDirectory() as folder:
                    told, found = storm(folder, words, devices, checker)
                sums = [sum(pair) for pair in zip(sums, told or [0] * 4)]
                wrong += [f"{words[0]}, {name}: {what}" for what in found]
                count += 1
    print("\n".join(wrong))
    print(f"{count} storms: raised {sums[0]} joined {sums[1]} taken {sums[2]} pending {sums[3]}; {len(wrong)} wrong")
    sys.exit(1 if wrong or sums[0] != sum(sums[1:]) else 0)


if __name__ == "__main__":
    main()
