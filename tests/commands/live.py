"""`tm live`: what is put and printed without devices; for plants whose devices run freely beside the slices, that the
dump, the tape and the audit tell one run; and the calls that are refused."""
import os
import re
import tempfile

from dumps import shape_of
from finder import text_from
from shared import check, equal, examples, expect, make_files, read, run, write

NO_DEVICE = "tmplant 1\n"
ONE_TASK = "tmi 1\ntask 0 basic 1 auto 0 1\ntext 0 00200893 00000073\n"
PREEMPTED = """tmi 1
task 0 basic 1 auto 0 1
text 0 0000006f
task 1 basic 2 off 0 1
text 1 00200893 00000073
line 1 activate 1
"""
QUIET_SLICE = "slice 2 0x0000 0x00000000 0x00000000 0x00000000 0x00000000\n"
AUDIT_LINE = re.compile(r"line (\d+) raised (\d+) joined (\d+) taken (\d+) pending (\d+)")
TIMES = 8


def plants():
    """Plants by name, each with its image, its slices and their length, and how often it is run."""
    relay = read(os.path.join(examples, "relay.tmi")).decode()
    every_line = "".join(f"raise {line % 8} {line} {3 + line}\n" for line in range(16))
    devices = [f"device {number}\n" for number in range(8)]
    storm = "".join(devices) + "".join(f"raise {number} 1 131072\n" for number in range(8))
    rounds = "".join(f"set 0 0 {value}\nset 0 1 {value}\n" for value in (1, 2, 3) * 20)
    waits = "raise 0 1 1\nhold 0 1 65536\n" * 20
    return {
        "three raises": (PREEMPTED, "device 0\nraise 0 1 3\n", 10, 4, TIMES),
        "two devices on one line": (PREEMPTED, "device 0\ndevice 1\nraise 0 1 50\nraise 1 1 50\n", 40, 6, TIMES),
        "every line": (PREEMPTED, "".join(devices) + every_line, 50, 3, TIMES),
        "ports in rounds": (relay, f"device 0\n{rounds}", 100, 10, TIMES),
        "ports and lines": (relay, f"device 0\ndevice 1\n{rounds}raise 1 1 30\n", 100, 20, TIMES),
        "a device that waits": (relay, f"device 0\n{waits}", 200, 9, TIMES),
        "two that wait": (relay, "device 0\ndevice 1\n" + waits + waits.replace("0 1 ", "1 1 "), 100, 9, TIMES),
        "no slice": (relay, "device 0\nraise 0 1 9\n", 0, 4, TIMES),
        "empty slices": (relay, "device 0\nraise 0 1 9\nset 0 3 7\n", 20, 0, TIMES),
        "an ended run": (ONE_TASK, "device 0\nraise 0 0 9\n", 30, 5, TIMES),
        "an idle device": (PREEMPTED, "device 0\ndevice 1\nraise 1 1 1\n", 10, 4, TIMES),
        "a storm": (PREEMPTED, storm, 1000, 10, 1),
    }


def raised_by(plant):
    """How often the plant raises each line."""
    raised = {}
    for words in map(str.split, plant.splitlines()):
        if words[0] == "raise":
            raised[int(words[2])] = raised.get(int(words[2]), 0) + int(words[3])
    return raised


def stored_by(plant):
    """The port words that the plant stores, and 0 for each port."""
    stored = {(port, 0) for port in range(4)}
    for words in map(str.split, plant.splitlines()):
        if words[0] == "set":
            stored.add((int(words[2]), int(words[3])))
    return stored


def wrong_audit(audit, plant, slices, masks):
    """What is wrong with an audit, beside the plant and the masks of the tape, where they are known."""
    first, *lines = audit.splitlines()
    wrong = [] if first == f"slices {slices}" else [first]
    told = {}
    for line in lines:
        number, raised, joined, taken, pending = map(int, AUDIT_LINE.fullmatch(line).groups())
        told[number] = raised
        if raised != joined + taken + pending:
            wrong.append(f"{line}: it doesn't add up")
        if masks is not None and taken != sum(mask >> number & 1 for mask in masks):
            wrong.append(f"{line}: the tape has another number of takes")
    if list(told) != sorted(told) or told != raised_by(plant):
        wrong.append(f"raised {told}")
    return wrong


def wrong_tape(tape, plant, slices, length):
    """The masks of a tape, and what is wrong with it."""
    header, *lines = tape.splitlines()
    wrong = [] if header == "tmplan 1" and len(lines) == slices else [f"{header}, {len(lines)} slices"]
    stored, masks = stored_by(plant), []
    for line in lines:
        word, size, mask, *ports = line.split(" ")
        masks.append(int(mask, 16))
        if (word, size, len(ports)) != ("slice", str(length), 4):
            wrong.append(line)
        wrong += [line for pair in enumerate(int(port, 16) for port in ports) if pair not in stored]
    return masks, wrong


def check_dump(what, folder, image):
    """The dump is that of the tape, and a replay from its least point is the end of the trace of the tape."""
    check(f"{what}: record", ["record", "i", "t", "again"], 0, b"", "", folder)
    dump = read(os.path.join(folder, "d"))
    equal(f"{what}: dump", dump == read(os.path.join(folder, "again")), True)
    points = run(["points", "i", "d"], folder).stdout.split()
    if not points:
        return
    words, _ = shape_of(image.encode())
    text = text_from(run(["trace", "i", "t"], folder).stdout, words, int(points[0]))
    check(f"{what}: replay", ["replay", "i", "d", "--from", points[0].decode()], 0, text, "", folder)


def check_plant(what, folder, image, devices, slices, length):
    """One run of a plant, whose parts must agree however its threads were interleaved."""
    plant = "tmplant 1\n" + devices
    write(os.path.join(folder, "i"), image.encode())
    write(os.path.join(folder, "p"), plant.encode())
    ended = run(["live", "i", "p", "d", f"--slices={slices}", "--len", str(length), "--tape", "t"], folder)
    equal(f"{what}: status", (ended.returncode, ended.stderr), (0, b""))
    tape = read(os.path.join(folder, "t")).decode()
    masks, wrong = wrong_tape(tape, plant, slices, length)
    expect(f"{what}: tape", wrong)
    expect(f"{what}: audit", wrong_audit(ended.stdout.decode(), plant, slices, masks))
    check_dump(what, folder, image)


def check_without_devices(folder):
    """Nothing is raised: the run, its tape and its audit are known."""
    write(os.path.join(folder, "i"), ONE_TASK.encode())
    write(os.path.join(folder, "p"), NO_DEVICE.encode())
    write(os.path.join(folder, "plan"), f"tmplan 1\n{QUIET_SLICE * 2}".encode())
    for spelled in (["--slices", "2", "--len", "2", "--tape", "t"], ["--tape=t", "--len=2", "--slices=2"]):
        check("no devices", ["live", "i", "p", "d", *spelled], 0, b"slices 2\n", "", folder)
        equal("no devices: tape", read(os.path.join(folder, "t")), read(os.path.join(folder, "plan")))
        check_dump("no devices", folder, ONE_TASK)
        os.remove(os.path.join(folder, "t"))
    check("no tape", ["live", "i", "p", "d", "--slices=2", "--len=2"], 0, b"slices 2\n", "", folder)
    equal("no tape: files", sorted(os.listdir(folder)), ["again", "d", "i", "p", "plan"])


def check_refusals(folder):
    """What is refused leaves no dump and no tape; a tape that can't be put leaves the dump."""
    image, plant, dump = "good.tmi", "good.tmplant", "refused.dump"
    write(os.path.join(folder, plant), NO_DEVICE.encode())
    write(os.path.join(folder, "bad.tmplant"), b"tmplant 1\ndevice 0\nraise 0 16 1\n")
    size = ["--slices", "1", "--len", "1"]
    refused = [
        ("no slices", [image, plant, dump, "--len", "1"], 2, "tm: words"),
        ("no length", [image, plant, dump, "--slices", "1"], 2, "tm: words"),
        ("two names", [image, plant, *size], 2, "tm: words"),
        ("slices twice", [image, plant, dump, *size, "--slices=1"], 2, "tm: words"),
        ("too many slices", [image, plant, dump, "--slices=1048577", "--len=1"], 2, "tm: words"),
        ("too long slices", [image, plant, dump, "--slices=1", "--len=1048577"], 2, "tm: words"),
        ("the dump's name as the tape", [image, plant, dump, *size, "--tape", dump], 2, "tm: words"),
        ("an empty tape", [image, plant, dump, *size, "--tape="], 2, "tm: words"),
        ("a missing image", ["missing.tmi", plant, dump, *size], 3, "tm: read fault"),
        ("a missing plant", [image, "missing.tmplant", dump, *size], 3, "tm: read fault"),
        ("an image that is none", ["not.tmi", plant, dump, *size], 4, "tm: image line 1 form"),
        ("a plan as the plant", [image, "good.tmplan", dump, *size], 5, "tm: plan line 1 form"),
        ("a line that there isn't", [image, "bad.tmplant", dump, *size], 5, "tm: plan line 3 range"),
        ("an image past 8 MiB", ["long.tmi", plant, dump, *size], 10, "tm: too long 1"),
        ("a plant past 128 MiB", [image, "long.tmplan", dump, *size], 10, "tm: too long 2"),
        ("a folder as the dump", [image, plant, "a_folder", *size, "--tape=t"], 9, "tm: write fault"),
    ]
    before = sorted([*os.listdir(folder)])
    for what, names, status, err in refused:
        check(f"live: {what}", ["live", *names], status, b"", err, folder)
        expect(f"live: {what}: files", [name for name in os.listdir(folder) if name not in before])
    check("live: a folder as the tape", ["live", image, plant, dump, *size, "--tape=a_folder"], 9, b"", "tm: write fault", folder)
    equal("live: a folder as the tape: files", sorted(os.listdir(folder)), sorted([*before, dump]))


def main():
    with tempfile.TemporaryDirectory() as folder:
        check_without_devices(folder)
    for what, (image, devices, slices, length, times) in plants().items():
        with tempfile.TemporaryDirectory() as folder:
            for _ in range(times):
                check_plant(what, folder, image, devices, slices, length)
    with tempfile.TemporaryDirectory() as folder:
        make_files(folder)
        check_refusals(folder)
