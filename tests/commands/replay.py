"""`tm replay`: the text of each recorded run from each of its points, what is lost at the others, dumps that no run
left, and the calls that are refused."""
import os
import random
import re
import tempfile

from changed_dumps import changed, diverging_dumps, refused_dumps
from dumps import recorded, shape_of
from finder import lost, text_from
from hostile import LINES
from shared import check, expect, make_files, read, run, top, write

JUMP = """tmi 1
task 0 basic 1 auto 0 1
text 0 0000006f
task 1 basic 2 off 0 1
text 1 00200893 00000073
line 1 activate 1
"""
OUTPUTS = """tmi 1
task 0 basic 1 auto 0 1
text 0 00100513 00700593 01300893 00000073 0000006f
task 1 basic 2 off 0 1
text 1 00900593 01300893 00000073 00200893 00000073
line 1 activate 1
"""
ONE_TASK = "tmi 1\ntask 0 basic 1 auto 0 1\n"
READS = ONE_TASK + "text 0 01200893 00000073 00000073 00000073 0000006f\n"


def record(folder, name, image, *slices):
    """Writes an image and a plan, records the run, and gives the dump."""
    plan = "".join(f"slice {words}\n" for words in slices)
    write(os.path.join(folder, f"{name}.tmi"), image.encode())
    write(os.path.join(folder, f"{name}.tmplan"), f"tmplan 1\n{plan}".encode())
    words = ["record", f"{name}.tmi", f"{name}.tmplan", f"{name}.dump"]
    check(f"{name}.dump recorded", words, 0, b"", "", folder)
    return read(os.path.join(folder, f"{name}.dump"))


def check_runs(shelf):
    """From each point of each recorded run the text is the end of the whole one, behind a block of its own, by any number
    of workers; at every other point it is told what is lost first."""
    for name, folder, image, dump, fields, text in recorded(shelf):
        words, _ = shape_of(read(os.path.join(folder, image)))
        for point in range(fields.control.total + 2):
            refusal = lost(fields, point)
            status, out = (7, b"") if refusal else (0, text_from(text, words, point))
            err = f"tm: point {refusal}" if refusal else ""
            call = ["replay", image, dump, "--from", str(point), f"--workers={1 + point % 16}"]
            check(f"{name} from {point}", call, status, out, err, folder)


def check_lost(folder):
    """A small buffer loses a point in its own way."""
    record(folder, "control", JUMP + "ring control 4\n", "5 0", *["2 0x2"] * 4, "0 0x2")
    record(folder, "data", READS + "ring data 2\n", "4 0")
    record(folder, "checks", ONE_TASK + "text 0 0000006f\nring checks 1\n", "1048576 0")
    rows = [
        ("control", "7\n8\n9\n10\n", {0: "control 7", 6: "control 7", 11: "unknown 10"}),
        ("data", "", {0: "data 0 0 1", 1: "data 0 0 1", 2: "unknown 1"}),
        ("checks", "", {0: "check 0 0", 1: "check 0 0", 2**64 - 1: "unknown 1"}),
    ]
    for name, points, refusals in rows:
        files = [f"{name}.tmi", f"{name}.dump"]
        check(f"points of {name}", ["points", *files], 0, points.encode(), "", folder)
        for point, refusal in refusals.items():
            words = ["replay", *files, "--from", str(point)]
            check(f"{name} lost at {point}", words, 7, b"", f"tm: point {refusal}", folder)


def check_changed(folder):
    """Dumps that are changed byte by byte: no dump, or one that no run left, from the first thing that is wrong."""
    image = os.path.join(top, "crates", "tm", "data", "smallest.tmi")
    check("smallest.dump recorded", ["record", image, image.replace(".tmi", ".tmplan"), "smallest.dump"], 0, b"", "", folder)
    dump = read(os.path.join(folder, "smallest.dump"))
    words = ["replay", image, "changed.dump", "--from", "0"]
    cases = [(what, other, 6, f"tm: dump {refusal}") for what, other, refusal in refused_dumps(dump)]
    cases += [(what, other, 8, f"tm: diverged {refusal}") for what, other, refusal in diverging_dumps(dump)]
    for what, other, status, err in cases:
        write(os.path.join(folder, "changed.dump"), other)
        check(f"replay: {what}", words, status, b"", err, folder)
    write(os.path.join(folder, "changed.dump"), changed(dump, (297, 1)))
    text = run(["trace", image, image.replace(".tmi", ".tmplan")]).stdout
    check("replay: another control number", words, 0, text, "", folder)


def check_demands(folder):
    """A marker that is passed, one that is moved away from, and an output that was not made."""
    jump = record(folder, "jump", JUMP, "5 0", "2 0x2")
    outputs = record(folder, "outputs", OUTPUTS, "5 0x2", "4 0")
    place = outputs.index(bytes([0, 1, 7, 0, 0, 0]))
    cases = [
        ("jump", changed(jump, (95, 4)), "at 2 task 0 reached 0.6.00000000 wanted 0.5.00000004 passed"),
        ("jump", changed(jump, (91, 4)), "at 3 task 0 reached 0.4.00000000 wanted 0.5.00000000 moved"),
        ("outputs", changed(outputs, (place + 2, 8)), "at 3 task 0 reached 0.0.00000010 wanted 0.0.00000010 other output"),
    ]
    for name, other, refusal in cases:
        write(os.path.join(folder, "changed.dump"), other)
        words = ["replay", f"{name}.tmi", "changed.dump", "--from", "0"]
        check(f"replay: {refusal}", words, 8, b"", f"tm: diverged {refusal}", folder)
    check("the dump of another image", ["replay", "outputs.tmi", "jump.dump", "--from", "0"], 6, b"", "tm: dump other image", folder)


def check_mutated(folder):
    """A byte that is changed anywhere is seen by the digest; under a fresh digest some line is told, and nothing is
    printed, or a text is."""
    dump, chance, wrong = read(os.path.join(folder, "good.dump")), random.Random(1), []
    for _ in range(200):
        place, byte = chance.randrange(len(dump) - 32), chance.randrange(1, 256)
        words = ["replay", "good.tmi", "changed.dump", "--from", str(chance.randrange(5))]
        write(os.path.join(folder, "changed.dump"), dump[:place] + bytes([dump[place] ^ byte]) + dump[place + 1 :])
        ended = run(words, folder)
        if (ended.returncode, ended.stdout) != (6, b"") or ended.stderr not in (b"tm: dump digest\n", b"tm: dump magic\n"):
            if (place, ended.stderr[:16]) != (4, b"tm: dump version"):
                wrong.append(f"place {place}: {ended.stderr!r}")
        write(os.path.join(folder, "changed.dump"), changed(dump, (place, dump[place] ^ byte)))
        ended = run(words, folder)
        told = [status for status in (6, 7, 8) if re.fullmatch(LINES[status].encode() + b"\n", ended.stderr)]
        if [ended.returncode] != (told or [0]) or bool(ended.stdout) == bool(told) or (not told and ended.stderr):
            wrong.append(f"place {place}, sealed: {ended.returncode}, {ended.stderr!r}")
    expect("mutated dumps", wrong)


def check_words(folder):
    """The option stands in two spellings and anywhere behind the first word; every other form is refused."""
    image, dump = "good.tmi", "good.dump"
    text = run(["replay", image, dump, "--from", "1"], folder).stdout
    expect("replay prints", [] if text.startswith(b"start 1 ") else [f"{text[:40]!r}"])
    for words in (
        [image, dump, "--from=1"],
        ["--from", "1", image, dump],
        ["--from=1", image, dump],
        [image, "--from", "1", dump],
        [image, dump, "--from", "00000000000000000001"],
        [image, dump, "--from=1", "--workers", "16"],
        ["--workers=2", image, "--from", "1", dump],
        [image, dump, "--workers", "01", "--from", "1"],
    ):
        check(f"replay {' '.join(words)}", ["replay", *words], 0, text, "", folder)
    for words in (
        [image, dump],
        [image, "--from", "1"],
        [image, dump, dump, "--from", "1"],
        [image, dump, "--from"],
        [image, dump, "--from", ""],
        [image, dump, "--from="],
        [image, dump, "--from", "1", "--from", "1"],
        [image, dump, "--from=1", "--from", "1"],
        [image, dump, "--from", "-1"],
        [image, dump, "--from=-1"],
        [image, dump, "--from", "+1"],
        [image, dump, "--from", "0x1"],
        [image, dump, "--from", "1 "],
        [image, dump, "--from", "18446744073709551616"],
        [image, dump, "--from", "000000000000000000001"],
        [image, dump, "-f", "1"],
        [image, dump, "--fro", "1"],
        [image, dump, "--", "--from", "1"],
        [image, "-", "--from", "1"],
        [image, "", "--from", "1"],
        [image, dump, "--workers", "2"],
        [image, dump, "--from", "1", "--workers", "0"],
        [image, dump, "--from", "1", "--workers", "17"],
        [image, dump, "--from", "1", "--workers=1", "--workers=1"],
        [image, dump, "--from", "1", "--workers="],
    ):
        check(f"replay {' '.join(words)}", ["replay", *words], 2, b"", "tm: words", folder)
    check("a point past all", ["replay", image, dump, "--from=18446744073709551615"], 7, b"", "tm: point unknown 3", folder)


def check_files(folder):
    """Files in their order, each before the point."""
    image, dump = "good.tmi", "good.dump"
    refused = [
        ("a missing image", ["missing.tmi", "missing.dump"], 3, "tm: read fault"),
        ("an image that is none", ["not.tmi", "missing.dump"], 4, "tm: image line 1 form"),
        ("a missing dump", [image, "missing.dump"], 3, "tm: read fault"),
        ("a folder as the dump", [image, "a_folder"], 3, "tm: read fault"),
        ("an image past 8 MiB", ["long.tmi", dump], 10, "tm: too long 1"),
        ("a dump past 128 MiB", [image, "long.dump"], 10, "tm: too long 2"),
        ("a text as the dump", [image, "not.tmi"], 6, "tm: dump magic"),
    ]
    write(os.path.join(folder, "long.dump"), b"\0" * ((128 << 20) + 1))
    for what, names, status, err in refused:
        check(f"replay: {what}", ["replay", *names, "--from", "99"], status, b"", err, folder)


def main():
    with tempfile.TemporaryDirectory() as shelf:
        check_runs(shelf)
    with tempfile.TemporaryDirectory() as folder:
        make_files(folder)
        check("good.dump recorded", ["record", "good.tmi", "good.tmplan", "good.dump"], 0, b"", "", folder)
        check_lost(folder)
        check_changed(folder)
        check_demands(folder)
        check_mutated(folder)
        check_words(folder)
        check_files(folder)
