"""`tm trace`: the texts of the cases and of the example, and the calls that are refused."""
import os
import resource
import tempfile

from shared import cases, check, equal, examples, make_files, read, run, steps, traces, write

MOST_PLAN, LITTLE_MEMORY = 128 << 20, 320 << 20


def check_runs():
    """The cases, the calls of tests/traces and the example: all their texts were made by an independent model."""
    for name in sorted(os.listdir(cases)):
        if name.endswith(".tmi"):
            base = name[: -len(".tmi")]
            check(base, ["trace", name, base + ".tmplan"], 0, read(os.path.join(cases, base + ".out")), "")
    for name, folder, words, status, text, err in steps():
        check(name, words, status, text, err, folder)
    handover = read(os.path.join(examples, "handover.out"))
    check("the example", ["trace", "handover.tmi", "handover.tmplan"], 0, handover, "", examples)


def check_refusals(folder):
    """Words, missing files, folders, and files that are not of their form."""
    image, plan = "good.tmi", "good.tmplan"
    refused = [
        ("no words", [], 2, "tm: words"),
        ("one name", ["trace", image], 2, "tm: words"),
        ("a third name", ["trace", image, plan, plan], 2, "tm: words"),
        ("a name that begins with a dash", ["trace", "-", plan], 2, "tm: words"),
        ("an empty name", ["trace", "", plan], 2, "tm: words"),
        ("an unknown command", ["trase", image, plan], 2, "tm: words"),
        ("an option beside other words", ["--help", image], 2, "tm: words"),
        ("a name that is no UTF-8", ["trace", b"\xff\xfe", plan], 2, "tm: words"),
        ("a missing image", ["trace", "missing.tmi", plan], 3, "tm: read fault"),
        ("a missing plan", ["trace", image, "missing.tmplan"], 3, "tm: read fault"),
        ("a folder as the image", ["trace", "a_folder", plan], 3, "tm: read fault"),
        ("a folder as the plan", ["trace", image, "a_folder"], 3, "tm: read fault"),
        ("an image that is none", ["trace", "not.tmi", plan], 4, "tm: image line 1 form"),
        ("a plan that is none", ["trace", image, "not.tmi"], 5, "tm: plan line 1 form"),
        ("the image's refusal before the plan's", ["trace", "not.tmi", "missing.tmplan"], 4, "tm: image line 1 form"),
        ("an image past 8 MiB", ["trace", "long.tmi", plan], 10, "tm: too long 1"),
        ("an image of 8 MiB without a task", ["trace", "full.tmi", plan], 4, "tm: image line 8388609 missing"),
        ("a plan past 128 MiB", ["trace", image, "long.tmplan"], 10, "tm: too long 2"),
        ("a plan of 128 MiB that is one note", ["trace", image, "full.tmplan"], 5, "tm: plan line 2 missing"),
    ]
    for what, words, status, err in refused:
        check(what, words, status, b"", err, folder)


def check_long_line(folder):
    """A line as long as a plan may be is refused in little more memory than its file takes."""
    header, line = b"tmplan 1\n", b"slice 1 0 "
    write(os.path.join(folder, "line.tmplan"), header + line + b"0 " * ((MOST_PLAN - len(header) - len(line)) // 2))
    words = ["trace", "good.tmi", "line.tmplan"]
    check("a line of 128 MiB", words, 5, b"", "tm: plan line 2 form", folder, preexec_fn=in_little_memory)


def in_little_memory():
    resource.setrlimit(resource.RLIMIT_AS, (LITTLE_MEMORY, LITTLE_MEMORY))


def check_cell(folder):
    """The image of tests/traces/cell under 20,000 ticks, one a slice of 500 instructions, to its end. Task 1 waits
    once at boot and after each second tick, task 3 ends after each fifth, task 4 at boot and after each seventh:
    10001, 4000 and 2858 epochs."""
    plan = os.path.join(folder, "cell.tmplan")
    slices = "".join(f"slice 500 1 {k} 0 0 0\n" for k in range(20000))
    write(plan, f"tmplan 1\n{slices}".encode())
    ended = run(["trace", os.path.join(traces, "cell", "I"), plan])
    lines = ended.stdout.split(b"\n")
    wanted = [
        b"end 0 on",
        b"task 1 waiting 10001.0.0000000c",
        b"task 3 suspended 4000.0.00000000",
        b"task 4 suspended 2858.0.00000000",
    ]
    told = (ended.returncode, ended.stderr, [line for line in wanted if line in lines])
    equal("20,000 slices", told, (0, b"", wanted))


def main():
    check_runs()
    with tempfile.TemporaryDirectory() as folder:
        make_files(folder)
        check_refusals(folder)
        check_long_line(folder)
        check_cell(folder)
