#!/usr/bin/env python3
"""Images, plans, plants, executables, dumps and words that nobody would write, given to the built program over real
files. No model says what is to come; what holds of every call is checked: it ends in time with a status and a line of
docs/messages.md, prints nothing beside a line, changes no file but those that it puts, and does the same again. A run
that is accepted is recorded, listed, and replayed from its points to the end of its own trace, also one beside devices,
by its tape; so is one of an image that was put. What observers saw are beginnings of one run. A dump with any byte
changed is refused.

Usage: hostile.py SEED MINUTES, by hand; or hostile.py SEED ROUND, with a round of the form rN, for one round again.
A failure names its seed and round."""
import glob
import os
import random
import re
import struct
import subprocess
import sys
import tempfile
import time

sys.dont_write_bytecode = True

from changed_dumps import sealed
from dumps import decode, is_beginning, shape_of
from finder import accepted, text_from
from shared import program, read, top, write

REASON = r"(form|number|range|repeated|limit|missing)"
MARKER = r"\d+\.\d+\.[0-9a-f]{8}"
LINES = {
    2: r"tm: words",
    3: r"tm: read fault",
    4: rf"tm: image line \d+ {REASON}",
    5: rf"tm: plan line \d+ {REASON}",
    6: r"tm: dump (magic|digest|other image|(version|field|extra) \d+)",
    7: r"tm: point (unknown \d+|control \d+|check \d+ \d+|data \d+ \d+ \d+)",
    8: rf"tm: diverged at \d+ task \d+ reached {MARKER} wanted {MARKER} "
    r"(passed|moved|faulted|no fault|no entry|other service|left|other output)",
    13: r"tm: elf (short \d+ \d+|field \d+|segment \d+ [1-4]|no text|entry \d+)",
    14: r"tm: no task \d+",
}
NUMBERS = (
    "0 1 2 3 4 5 7 8 15 16 17 63 64 65 255 256 4095 16384 16385 65535 65536 65537 4294967295 4294967296 0x0 0xffff -1"
).split()
EDGES = (0, 1, 2, 4, 8, 52, 64, 65, 116, 0xFFFC, 0xFFFF, 0x10000, 0xFFFFFFF, 0x10000000, 0x1000FFFC, 0x10010000, 2**32 - 1)
WORDS = (
    "trace record live watch points replay make load --from --from= --from=0 --workers --workers= --workers=2 --slices "
    "--slices=2 --len= --len=3 --tape --tape=tape --observers --observers=2 --looks= --looks=3 --help --version -- - ="
).split()
EXECUTABLES = [f"{top}/examples/c/{way}/{task}" for way in ("apart", "whole") for task in ("control", "entry")]
PLANT = b"""tmplant 1
device 0
device 1
set 0 0 7
raise 0 1 20
hold 1 1 50
raise 1 0 3
set 1 3 4294967295
"""
LIVE = ("live", "image", "plant", "dump", "--slices=20", "--len=10", "--tape=tape")
WATCH = ("watch", "image", "plant", "seen", "--slices=20", "--len=10", "--observers=2", "--looks=5")
SEEN = ("seen.0", "seen.1", "seen.end")
MOST_INSTRUCTIONS, IN_TIME = 200_000, 120


class Wrong(Exception):
    """What a call did that no call may do."""


class Case:
    """One round: its chance, and the folder that has its files and nothing else."""

    def __init__(self, seed, number, folder):
        self.chance = random.Random(f"{seed} {number}")
        self.folder = folder

    def files(self):
        return {name: read(os.path.join(self.folder, name)) for name in os.listdir(self.folder)}

    def call(self, *words):
        """Runs the program, and holds the call to what holds of every call. Gives its status and its text."""
        before = self.files()
        try:
            ended = subprocess.run([program, *words], cwd=self.folder, capture_output=True, timeout=IN_TIME)
        except subprocess.TimeoutExpired as late:
            raise Wrong(f"{words}: no end in {IN_TIME} s") from late
        told = f"{words}: {ended.returncode}, {len(ended.stdout)} bytes, {ended.stderr[:200]!r}"
        if ended.returncode == 0:
            if ended.stderr:
                raise Wrong(told)
        elif ended.stdout or not re.fullmatch(LINES.get(ended.returncode, "").encode() + b"\n", ended.stderr):
            raise Wrong(told)
        after = self.files()
        for name in put_by(words) if ended.returncode == 0 else ():
            before.pop(name, None)
            after.pop(name)
        if after != before:
            raise Wrong(f"{words}: other files")
        return ended.returncode, ended.stdout + ended.stderr

    def twice(self, *words):
        """The same call twice answers the same."""
        first, second = self.call(*words), self.call(*words)
        if first != second:
            raise Wrong(f"{words}: {first[1][:80]!r}, and then {second[1][:80]!r}")
        return first


def put_by(words):
    """The names under which a call puts that ends well."""
    if words == LIVE:
        return ("dump", "tape")
    if words == WATCH:
        return SEEN
    if words[:1] == ("load",):
        return words[4:5]
    return words[3:4] if words[:1] == ("record",) else ()


def seeds():
    """Images with a plan each, as bytes."""
    found = []
    for image in sorted(glob.glob(f"{top}/tests/cases/*.tmi") + glob.glob(f"{top}/examples/*.tmi")):
        found.append((read(image), read(image.replace(".tmi", ".tmplan"))))
    for folder in sorted(glob.glob(f"{top}/tests/traces/mul-*")):
        found.append((read(os.path.join(folder, "I")), read(os.path.join(folder, "P"))))
    cell = os.path.join(top, "examples", "cell", "cell")
    return found + [(read(cell + ".tmi"), read(cell + ".tmplan"))]


def changed_token(chance, line):
    tokens = line.split(b" ")
    place = chance.randrange(len(tokens))
    if re.fullmatch(rb"[0-9a-f]{8}", tokens[place]) and chance.random() < 0.7:
        tokens[place] = b"%08x" % (int(tokens[place], 16) ^ 1 << chance.randrange(32))
    else:
        tokens[place] = chance.choice(NUMBERS).encode()
    return b" ".join(tokens)


def changed_text(chance, text, other):
    """A text with one thing changed in it: a token, a line, some bytes, or a part of another."""
    lines = text.split(b"\n")
    place = chance.randrange(len(lines))
    match chance.randrange(8):
        case 0 | 1 | 2:
            lines[place] = changed_token(chance, lines[place])
        case 3:
            lines.insert(chance.randrange(len(lines)), lines[place])
        case 4:
            del lines[place]
        case 5:
            lines.insert(place, chance.choice(other.split(b"\n")))
        case 6:
            lines[place] = lines[place][: chance.randrange(len(lines[place]) + 1)]
        case _:
            return changed_bytes(chance, text)
    return b"\n".join(lines)


def changed_bytes(chance, content):
    """Bytes with a few of them replaced, cut out or put in."""
    content = bytearray(content)
    for _ in range(chance.randrange(1, 4)):
        place = chance.randrange(len(content) + 1)
        content[place : place + chance.randrange(3)] = chance.randbytes(chance.randrange(3))
    return bytes(content)


def changed_bits(chance, content):
    """Bytes of the same length with a few bits turned, behind the head of a dump."""
    content = bytearray(content)
    for _ in range(chance.randrange(1, 4)):
        content[chance.randrange(37, len(content))] ^= 1 << chance.randrange(8)
    return bytes(content)


def changed_executable(chance, content):
    """An executable with another number in its head or in a header, or with other bytes."""
    if chance.random() < 0.3:
        return changed_bytes(chance, content)
    place, size = chance.choice([(16, 2), (18, 2), (42, 2), (44, 2), *((place, 4) for place in range(20, 116, 4))])
    return content[:place] + chance.choice(EDGES).to_bytes(4, "little")[:size] + content[place + size :]


def is_short(plan):
    """The instructions of a plan are few, as far as it can be read."""
    lengths = re.findall(rb"\bslice\s+(?:0x([0-9a-fA-F]{1,8})|(\d{1,10}))", plan)
    return sum(int(high or b"0", 16) + int(low or b"0") for high, low in lengths) < MOST_INSTRUCTIONS


def play_texts(case, pairs):
    """A changed image, a changed plan, or both; what is accepted is recorded, listed and replayed."""
    (image, plan), (other_image, other_plan) = case.chance.choice(pairs), case.chance.choice(pairs)
    for _ in range(case.chance.randrange(4)):
        image = changed_text(case.chance, image, other_image)
    for _ in range(case.chance.randrange(3)):
        plan = changed_text(case.chance, plan, other_plan)
    if not is_short(plan):
        return
    write(os.path.join(case.folder, "image"), image)
    write(os.path.join(case.folder, "plan"), plan)
    write(os.path.join(case.folder, "dump"), b"old")
    status, text = case.twice("trace", "image", "plan")
    recorded = case.call("record", "image", "plan", "dump")
    if recorded[0] != status or (status and recorded[1] != text):
        raise Wrong(f"trace {status}, record {recorded}")
    if status == 0:
        play_run(case, image, text)


def play_plant(case, pairs):
    """A changed plant beside an image. What is refused is refused again; the tape of what is accepted gives the same
    dump, and the run goes on as any other."""
    (image, other), plant = case.chance.choice(pairs), PLANT
    for _ in range(case.chance.randrange(4)):
        plant = changed_text(case.chance, plant, other)
    for name, content in (("image", image), ("plant", plant), *((name, b"old") for name in ("dump", "tape", *SEEN))):
        write(os.path.join(case.folder, name), content)
    status, text = case.call(*LIVE)
    if status:
        if not case.call(*LIVE) == case.call(*WATCH) == (status, text):
            raise Wrong(f"live: {text}, and then another answer, or one of watch")
        return
    play_watch(case, image)
    put = read(os.path.join(case.folder, "dump"))
    recorded = case.call("record", "image", "tape", "dump")
    if recorded[0] or read(os.path.join(case.folder, "dump")) != put:
        raise Wrong(f"the tape gives another dump: {recorded}")
    play_run(case, image, case.call("trace", "image", "tape")[1])


def play_watch(case, image):
    """The same beside observers: what each saw begins the run, and is replayed from the points that it has all of."""
    if case.call(*WATCH)[0]:
        raise Wrong("watch refuses what live does")
    words, caps = shape_of(image)
    *parts, whole = [decode(read(os.path.join(case.folder, name)), words, caps) for name in SEEN]
    if not all(is_beginning(part, whole) for part in parts):
        raise Wrong("a dump that doesn't begin the run")
    for name, fields in zip(SEEN, [*parts, whole]):
        points = accepted(fields)
        if case.call("points", "image", name) != (0, "".join(f"{point}\n" for point in points).encode()):
            raise Wrong(f"{name}: other points")
        for point in {*points[:1], *points[-1:]}:
            if case.call("replay", "image", name, "--from", str(point))[0]:
                raise Wrong(f"{name}: no replay from {point}")


def play_executable(case, pairs):
    """A changed executable for a task of an image. What is put is an image, whose run goes on as any other, and in which
    the same executable changes nothing."""
    (image, plan), task = case.chance.choice(pairs), str(case.chance.randrange(4))
    content = read(case.chance.choice(EXECUTABLES))
    for _ in range(case.chance.randrange(4)):
        content = changed_executable(case.chance, content)
    for name, given in (("image", image), ("plan", plan), ("file", content), ("new", b"old"), ("dump", b"old")):
        write(os.path.join(case.folder, name), given)
    if case.twice("load", "image", task, "file", "new")[0]:
        return
    put = read(os.path.join(case.folder, "new"))
    loaded = case.call("load", "new", task, "file", "image")
    if loaded[0] or read(os.path.join(case.folder, "image")) != put:
        raise Wrong(f"the same executable gives another image: {loaded}")
    status, text = case.twice("trace", "image", "plan")
    if status or case.call("record", "image", "plan", "dump")[0]:
        raise Wrong(f"the image that was put: {text}")
    play_run(case, put, text)


def play_run(case, image, text):
    """The points are those that the dump has all of, and the text from each is the end of the trace."""
    dump = read(os.path.join(case.folder, "dump"))
    words, caps = shape_of(image)
    fields = decode(dump, words, caps)
    points = accepted(fields)
    if case.twice("points", "image", "dump") != (0, "".join(f"{point}\n" for point in points).encode()):
        raise Wrong("other points")
    for point in {*points[:1], *points[-1:], *case.chance.sample(points, min(3, len(points)))}:
        workers = f"--workers={case.chance.randrange(1, 17)}"
        if case.call("replay", "image", "dump", "--from", str(point), workers) != (0, text_from(text, words, point)):
            raise Wrong(f"another text from {point}")
    play_dump(case, dump, fields.control.total)


def play_dump(case, dump, total):
    """A changed dump is refused, and one that is sealed anew is refused, diverges, or is a text; always the same."""
    for sealing, change in ((False, changed_bytes), (True, changed_bytes), (True, changed_bits), (True, changed_bits)):
        other = change(case.chance, dump[:-32] if sealing else dump)
        if other in (dump, dump[:-32]):
            continue
        write(os.path.join(case.folder, "changed"), sealed(other) if sealing else other)
        listed = case.twice("points", "image", "changed")
        told = case.twice("replay", "image", "changed", "--from", str(case.chance.randrange(total + 2)))
        if not sealing and (listed[0], told[0]) != (6, 6):
            raise Wrong(f"a changed dump: {listed}, {told}")
        if listed[0] == 6 and told != listed:
            raise Wrong(f"points {listed}, replay {told}")


def play_words(case, pairs):
    """Words in any order, some of them names of files that are there."""
    image, plan = case.chance.choice(pairs)
    for name, content in (("image", image), ("plan", plan), ("dump", b"old")):
        write(os.path.join(case.folder, name), content)
    choices = [*WORDS, *NUMBERS, "image", "plan", "dump", "missing", ""]
    words = [case.chance.choice(choices) for _ in range(case.chance.randrange(7))]
    if words[:1] not in (["record"], ["make"], ["load"]):
        case.twice(*words)


def play(seed, number, pairs):
    """One round; what was wrong in it, or nothing."""
    with tempfile.TemporaryDirectory() as folder:
        case = Case(seed, number, folder)
        try:
            chance = case.chance.random()
            kinds = ((0.2, play_words), (0.4, play_plant), (0.5, play_executable), (1, play_texts))
            next(kind for share, kind in kinds if chance < share)(case, pairs)
        except (Wrong, OSError, struct.error, LookupError, ValueError) as wrong:
            return [f"seed {seed}, round {number}: {wrong!r}"]
    return []


def storm(seed, minutes):
    """Rounds for so many minutes: how many, and what was wrong in them."""
    pairs, wrong, number, begin = seeds(), [], 0, time.monotonic()
    while time.monotonic() - begin < 60 * minutes:
        wrong += play(seed, number, pairs)
        number += 1
    return number, wrong


def main():
    seed, much = sys.argv[1:]
    if much.startswith("r"):
        rounds, wrong = 1, play(seed, int(much[1:]), seeds())
    else:
        rounds, wrong = storm(seed, float(much))
    print("\n".join([*wrong, f"{rounds} rounds, {len(wrong)} wrong"]))
    sys.exit(1 if wrong else 0)


if __name__ == "__main__":
    main()
