"""`tm load`: the image that it puts, byte by byte; every refusal of an executable, at the edge of what is accepted; the
order of the tests; and that each recorded run is the same where a task comes from an executable."""
import os
import struct
import tempfile

from executables import DATA, TEXT, WINDOW, changed, executable, load, words_of
from shared import check, equal, expect, make_files, read, recorded_runs, run, write

END = bytes.fromhex("93082000 73000000")
END_WORDS = ["00200893", "00000073"]
SMALLEST = b"tmi 1\ntask 0 basic 1 auto 0 1\ntext 0 00200893 00000073\n"
SMALLEST_TEXT = b"""start 0 -
task 0 0.0.00000000
regs x2=10000004
switch 1 - idle 0
switch 2 0 ends -
at 1.0.00000000
regs x2=10000004
end - on
task 0 suspended 1.0.00000000
regs x2=10000004
"""
RINGS = "ring control 256\nring data 256\nring outputs 256\nring checks 4\n"
FULL = 16384
# Everything that an image can say, not as it is put.
SPELLED = """# An image.
tmi 1
ring checks 0x7\r
task 0x0 extended 255 off 0x4 3
line 15 tick
text 0 DEADBEEF\t00000013
box 0 0x40
task 1 basic 1 auto 0 2
data 0 1 00000005
data 0 1 00000000 0000000A
line 0x2 event 0 4294967295
text 1 00200893
text 1 00000073
resource 0 1 0
alarm 0 activate 1
alarm 1 event 0 0xff
line 0 activate 0x1
ring control 65536
box 1 1
resource 1 1
"""
PUT = """tmi 1
task 0 extended 255 off 4 3
text 0 deadbeef 00000013
data 0 0 00000000 00000000 0000000a
task 1 basic 1 auto 0 2
text 1 00200893 00000073
resource 0 0 1
resource 1 1
alarm 0 activate 1
alarm 1 event 0 255
box 0 64
box 1 1
line 0 activate 1
line 2 event 0 4294967295
line 15 tick
ring control 65536
ring data 256
ring outputs 256
ring checks 7
"""


def one_task(text, data=(), count=1, entry=0):
    """The image that is put of the smallest one, with these words in it."""
    lines = ["tmi 1", f"task 0 basic 1 auto {entry} {count}", " ".join(["text 0", *text])]
    if data:
        lines.append(" ".join(["data 0 0", *data]))
    return "\n".join([*lines, RINGS]).encode()


def accepted():
    """Executables by name, each with the image that is put."""
    zero, one = "00000000", "00000001"
    code = load(TEXT, END)
    rest = bytes([1, 2, 3, 4, 5])
    yield "the smallest", executable(code), one_task(END_WORDS)
    yield "bytes behind", executable(code) + b"behind", one_task(END_WORDS)
    yield "headers elsewhere", executable(code, headers=77), one_task(END_WORDS)
    yield "the last entry", executable(code, entry=4), one_task(END_WORDS, entry=4)
    yield "half a word of text", executable(load(TEXT, END + rest)), one_task([*END_WORDS, "04030201", "00000005"])
    yield "a byte of text", executable(load(TEXT + 6, b"\x01")), one_task([zero, "00010000"])
    yield "zeros behind", executable(load(TEXT, END, memory=13)), one_task([*END_WORDS, zero, zero])
    yield "zeros alone", executable(load(TEXT, memory=1, offset=2**32 - 1)), one_task([zero])
    yield "touching loads", executable(code, load(TEXT + 8, END)), one_task(END_WORDS * 2)
    disordered = executable(load(TEXT + 7, b"\x01\x02"), load(TEXT, b"\x03" * 7))
    yield "loads in no order", disordered, one_task(["03030303", "01030303", "00000002"])
    yield "a hole", executable(code, load(TEXT + 17, b"\x01")), one_task([*END_WORDS, zero, zero, "00000100"])
    yield "an entry in a hole", executable(load(TEXT + 8, END), entry=4), one_task([zero, zero, *END_WORDS], entry=4)
    yield "the same bytes twice", executable(code, load(TEXT + 8, size=8, offset=116)), one_task(END_WORDS * 2)
    own = executable(code, load(DATA, size=7, offset=0))
    yield "its own head", own, one_task(END_WORDS, ["464c457f", "00010101"], 2)
    yield "the whole text", executable(load(TEXT, END, memory=WINDOW)), one_task(END_WORDS + [zero] * (FULL - 2))
    yield "the end of the text", executable(load(WINDOW - 1, b"\x01")), one_task([zero] * (FULL - 1) + ["01000000"])
    yield "a byte of data", executable(code, load(DATA, b"\x01")), one_task(END_WORDS, [one])
    yield "two words of data", executable(load(DATA, END), code), one_task(END_WORDS, END_WORDS, 2)
    yield "no word but zeros", executable(code, load(DATA, bytes(8))), one_task(END_WORDS, (), 2)
    parted = executable(code, load(DATA, END[:4], memory=9), load(DATA + 12, END, memory=20))
    yield "zeros between and behind", parted, one_task(END_WORDS, [END_WORDS[0], zero, zero, *END_WORDS], 8)
    yield "the whole data", executable(code, load(DATA, memory=WINDOW)), one_task(END_WORDS, (), FULL)
    last = executable(code, load(DATA + WINDOW - 4, END[:4]))
    yield "the end of the data", last, one_task(END_WORDS, [zero] * (FULL - 1) + END_WORDS[:1], FULL)
    ignored = [load(0x500, bytes(4), kind=6), load(TEXT, memory=9, kind=2), load(5, memory=0, size=9, offset=2**32 - 1)]
    yield "other headers", executable(*ignored, code), one_task(END_WORDS)
    many = [load(TEXT + 4 * place, bytes([place, 0, 0, 0])) for place in range(64)]
    yield "64 headers", executable(*reversed(many)), one_task([f"{place:08x}" for place in range(64)])
    yield "8 MiB", executable(code).ljust(8 << 20, b"\xff"), one_task(END_WORDS)


def short_and_field_faults(good):
    """What is wrong with the head of a file, by name: the file, and the line."""
    yield "an empty file", b"", "short 52 0"
    yield "a byte", b"\x7f", "short 52 1"
    yield "no whole head", changed(good, 0, 0)[:51], "short 52 51"
    yield "no header", good[:52], "short 84 52"
    yield "no whole header", good[:83], "short 84 83"
    yield "headers past all", changed(good, 28, 0xFF, 0xFF, 0xFF, 0xFF, good[32], *good[33:44], 64), "short 4294969343 92"
    for place in range(4):
        yield f"another magic at {place}", changed(good, place, good[place] ^ 0x20), "field 0"
    values = {4: (0, 2), 5: (0, 2), 6: (0, 2), 16: (0, 1, 3), 18: (62, 0), 20: (0, 2), 42: (0, 31, 33, 56), 44: (0, 65)}
    for place, wrong in values.items():
        for value in wrong:
            yield f"{value} at {place}", changed(good, place, value), f"field {place}"
    for place, last in ((16, 17), (18, 19), (20, 23), (42, 43), (44, 45)):
        yield f"a high byte at {last}", changed(good, last, 1), f"field {place}"
    places = (0, 4, 5, 6, 16, 18, 20, 42, 44)
    for number, place in enumerate(places):
        file = good
        for later in places[number:]:
            file = changed(file, later, 0)
        yield f"all wrong from {place} on", file[:52], f"field {place}"


def segment_faults():
    """What is wrong with the loads of an executable, by name: the file, and the line."""
    code = load(TEXT, END)
    yield "a byte past the file", executable(code)[:-1], "segment 0 1"
    yield "an offset past the file", executable(load(TEXT, size=1, offset=84)), "segment 0 1"
    yield "an offset past all", executable(load(TEXT, size=8, offset=2**32 - 4), code), "segment 0 1"
    yield "another window alone", executable(load(WINDOW, END)), "segment 0 3"
    yield "a byte above the memory", executable(code, load(DATA, END, memory=7)), "segment 1 2"
    outside = [(WINDOW, 1), (WINDOW - 4, 5), (0x10000, 8), (0x80000000, 4), (2**32 - 1, 2), (2**32 - 4, 8), (0, WINDOW + 1)]
    outside += [(DATA - 1, 1), (DATA - 1, 2), (DATA + WINDOW, 1), (DATA + WINDOW - 1, 2), (DATA, WINDOW + 1), (4, 2**32 - 1)]
    outside += [(0, DATA), (0, DATA + 1)]
    for at, memory in outside:
        yield f"{memory} at {at:x}", executable(code, load(at, memory=memory)), "segment 1 3"
    for at, memory in ((0, 8), (7, 1), (7, 9), (4, 2), (0, WINDOW)):
        yield f"{memory} over the text at {at}", executable(code, load(at, memory=memory)), "segment 1 4"
    yield "an earlier load behind", executable(load(8, memory=8), load(0, memory=9)), "segment 1 4"
    yield "over zeros", executable(load(TEXT, END, memory=12), load(8, END)), "segment 1 4"
    yield "over data", executable(code, load(DATA, END), load(DATA + 4, END)), "segment 2 4"
    ignored = [load(0, kind=2), load(0, kind=6, memory=9), load(5, memory=0)]
    yield "headers count", executable(*ignored, load(WINDOW, b"\x01")), "segment 3 3"
    yield "the first load", executable(load(TEXT, END, memory=7), load(TEXT, size=9, offset=2**31)), "segment 0 2"
    yield "past the file before above", executable(load(WINDOW, size=9, memory=8, offset=2**31)), "segment 0 1"
    yield "above before outside", executable(load(WINDOW, b"\x01\x02", memory=1)), "segment 0 2"
    yield "outside before over", executable(code, load(0, memory=WINDOW + 1)), "segment 1 3"


def task_faults():
    """What is wrong with the task that the loads make, by name: the file, and the line."""
    code = load(TEXT, END)
    yield "data alone", executable(load(DATA, END)), "no text"
    yield "no load", executable(load(TEXT, END, kind=2)), "no text"
    yield "a load of nothing", executable(load(TEXT, memory=0)), "no text"
    yield "no text before an entry", executable(load(DATA, END), entry=1), "no text"
    for entry in (1, 2, 3, 5, 8, 12, 0x10000, DATA, 2**32 - 4, 2**32 - 1):
        yield f"entry {entry}", executable(code, load(DATA, memory=WINDOW), entry=entry), f"entry {entry}"
    yield "an entry in what is rounded up", executable(load(TEXT, END[:5]), entry=6), "entry 6"
    yield "an entry behind", executable(load(TEXT, END[:5]), entry=8), "entry 8"


def refuse(what, folder, words, status, err):
    """The call is refused, no file is added, and the image that stood there stays."""
    before = sorted(os.listdir(folder))
    check(f"load: {what}", ["load", *words], status, b"", err, folder)
    equal(f"load: {what}: files", sorted(os.listdir(folder)), before)
    equal(f"load: {what}: image", read(os.path.join(folder, "new")), b"old")


def check_accepted(folder):
    write(os.path.join(folder, "image"), SMALLEST)
    for what, file, put in accepted():
        write(os.path.join(folder, "file"), file)
        write(os.path.join(folder, "new"), b"old")
        check(f"load: {what}", ["load", "image", "0", "file", "new"], 0, b"", "", folder)
        equal(f"load: {what}: image", read(os.path.join(folder, "new")), put)
        equal(f"load: {what}: executable", read(os.path.join(folder, "file")), file)


def check_faults(folder):
    write(os.path.join(folder, "image"), SMALLEST)
    write(os.path.join(folder, "new"), b"old")
    good = executable(load(TEXT, END))
    for what, file, fault in [*short_and_field_faults(good), *segment_faults(), *task_faults()]:
        write(os.path.join(folder, "file"), file)
        refuse(what, folder, ["image", "0", "file", "new"], 13, f"tm: elf {fault}")


def check_whole(folder):
    """All of an image of either version is put in its one spelling, but for the task; nothing of the task's old text and
    data stays."""
    zeros = executable(load(TEXT, memory=5), entry=4)
    for task, file, put in (
        ("1", executable(load(TEXT, END), load(DATA, memory=5)), PUT),
        ("00", zeros, PUT.replace("deadbeef 00000013\ndata 0 0 00000000 00000000 0000000a", "00000000 00000000")),
        ("01", zeros, PUT.replace("basic 1 auto 0", "basic 1 auto 4").replace("00200893 00000073", "00000000 00000000")),
    ):
        write(os.path.join(folder, "file"), file)
        for header in ("tmi 1", "tmi 2"):
            write(os.path.join(folder, "image"), SPELLED.replace("tmi 1", header).encode())
            check(f"load: task {task}, {header}", ["load", "image", task, "file", "new"], 0, b"", "", folder)
            wanted = put.replace("tmi 1", header)
            equal(f"load: task {task}, {header}: image", read(os.path.join(folder, "new")).decode(), wanted)


def check_names(folder):
    """The new image may take the place of either file; loading it again changes nothing."""
    file, put = executable(load(TEXT, END, memory=12)), one_task([*END_WORDS, "00000000"])
    for new, words in (("image", ["image", "0", "file", "image"]), ("file", ["image", "0", "file", "file"])):
        write(os.path.join(folder, "image"), SMALLEST)
        write(os.path.join(folder, "file"), file)
        check(f"load: {new} anew", ["load", *words], 0, b"", "", folder)
        equal(f"load: {new} anew: image", read(os.path.join(folder, new)), put)
    write(os.path.join(folder, "file"), file)
    write(os.path.join(folder, "image"), put)
    check("load: the same again", ["load", "image", "0", "file", "again"], 0, b"", "", folder)
    equal("load: the same again: image", read(os.path.join(folder, "again")), put)
    write(os.path.join(folder, "new"), b"old")
    refuse("an image as the executable", folder, ["image", "0", "image", "new"], 13, "tm: elf field 0")
    refuse("an executable as the image", folder, ["file", "0", "file", "new"], 4, "tm: image line 1 form")


def bad_words(image):
    """Words of no form behind `load`, by name."""
    good = [image, "0", "file", "new"]
    for task in ("", "-1", "+1", "16", "99", "000", "001", "0x0", "0 ", " 0", "1.", "a", "\u0661"):
        yield f"task {task!r}", [image, task, "file", "new"]
        yield f"task {task!r} of a missing image", ["missing", task, "missing", "new"]
    for names in (*(good[:count] for count in range(4)), [*good, "new"], [*good, ""]):
        yield f"{len(names)} words", names
    for place in (0, 2, 3):
        for name in ("", "-", "-x", "--", "--from=0"):
            yield f"{name!r} in place {place}", [*good[:place], name, *good[place + 1 :]]
    for option in ("--from=0", "--task=0", "--tape=x", "--workers=1", "--help"):
        yield option, [*good, option]


def check_order(folder):
    """The first test that fails is answered; nothing is put."""
    for name, content in (("file", executable(load(TEXT, END))), ("bad", b"\x7fELF"), ("new", b"old")):
        write(os.path.join(folder, name), content)
    with open(os.path.join(folder, "long"), "wb") as long:
        long.truncate((8 << 20) + 1)
    write(os.path.join(folder, "smallest"), SMALLEST)
    image, missing, no_task, words = "good.tmi", (3, "tm: read fault"), (14, "tm: no task 2"), (2, "tm: words")
    refused = [
        ("a missing image", ["missing", "0", "file", "new"], missing),
        ("a missing image before a missing executable", ["missing", "15", "missing", "new"], missing),
        ("a folder as the image", ["a_folder", "0", "file", "new"], missing),
        ("an image past 8 MiB", ["long.tmi", "2", "missing", "new"], (10, "tm: too long 1")),
        ("an image that is none", ["not.tmi", "2", "missing", "new"], (4, "tm: image line 1 form")),
        ("an image of empty lines", ["full.tmi", "2", "missing", "new"], (4, "tm: image line 8388609 missing")),
        ("no task before a missing executable", [image, "2", "missing", "new"], no_task),
        ("no task before a bad executable", [image, "02", "bad", "new"], no_task),
        ("no task before a long executable", [image, "2", "long", "new"], no_task),
        ("no second task", ["smallest", "1", "file", "new"], (14, "tm: no task 1")),
        ("the last number of a task", [image, "15", "file", "new"], (14, "tm: no task 15")),
        ("a missing executable", [image, "0", "missing", "new"], missing),
        ("a folder as the executable", [image, "0", "a_folder", "new"], missing),
        ("an executable past 8 MiB", [image, "0", "long", "new"], (10, "tm: too long 2")),
        ("a bad executable before a bad name", [image, "0", "bad", "no/new"], (13, "tm: elf short 52 4")),
        ("a folder that isn't there", [image, "0", "file", "no/new"], (9, "tm: write fault")),
        ("a folder as the image that is put", [image, "0", "file", "a_folder"], (9, "tm: write fault")),
    ]
    for what, names, (status, err) in [*refused, *((what, names, words) for what, names in bad_words(image))]:
        refuse(what, folder, names, status, err)


def parts_of(image):
    """The entry, text words and data words of each task of an image that isn't refused."""
    tasks = []
    for tokens in map(str.split, image.decode("ascii").split("\n")):
        if tokens[:1] == ["task"]:
            tasks.append((int(tokens[5], 0), [], [0] * int(tokens[6], 0)))
        elif tokens[:1] == ["text"]:
            tasks[int(tokens[1], 0)][1].extend(int(word, 16) for word in tokens[2:])
        elif tokens[:1] == ["data"]:
            for place, word in enumerate(tokens[3:], int(tokens[2], 0)):
                tasks[int(tokens[1], 0)][2][place] = int(word, 16)
    return tasks


def executable_of(entry, text, data):
    """The executable of a task as an image has it."""
    loads = [load(at, struct.pack(f"<{len(words)}I", *words)) for at, words in ((DATA, data), (TEXT, text))]
    return executable(*loads, entry=entry)


def check_runs(folder):
    """Every run whose text is known has the same text where each task was loaded from its own executable, and loading
    tasks in the other order gives the same image."""
    for name, place, words, text in recorded_runs():
        image = read(os.path.join(place, words[1]))
        tasks = list(enumerate(parts_of(image)))
        images = []
        for order in (tasks, tasks[::-1]):
            write(os.path.join(folder, "new"), image)
            for task, parts in order:
                write(os.path.join(folder, "file"), executable_of(*parts))
                check(f"{name}: task {task} loaded", ["load", "new", str(task), "file", "new"], 0, b"", "", folder)
            images.append(read(os.path.join(folder, "new")))
        equal(f"{name}: loaded in two orders", images[0], images[1])
        plan = os.path.join(place, words[2])
        equal(f"{name}: loaded", run(["trace", "new", plan], folder).stdout, text)


def check_dumps(folder):
    """The image that is put is another one to a dump, and is recorded and replayed as any image."""
    write(os.path.join(folder, "image"), SMALLEST)
    write(os.path.join(folder, "plan"), b"tmplan 1\nslice 2 0\n")
    write(os.path.join(folder, "file"), executable(load(TEXT, END)))
    check("load: the smallest", ["load", "image", "0", "file", "new"], 0, b"", "", folder)
    check("load: its trace", ["trace", "new", "plan"], 0, SMALLEST_TEXT, "", folder)
    check("recorded before", ["record", "image", "plan", "dump"], 0, b"", "", folder)
    check("load: its dump", ["points", "new", "dump"], 6, b"", "tm: dump other image", folder)
    check("recorded after", ["record", "new", "plan", "dump"], 0, b"", "", folder)
    check("load: its replay", ["replay", "new", "dump", "--from", "0"], 0, SMALLEST_TEXT, "", folder)


def main():
    for part in (check_accepted, check_faults, check_whole, check_names, check_runs, check_dumps):
        with tempfile.TemporaryDirectory() as folder:
            part(folder)
    with tempfile.TemporaryDirectory() as folder:
        make_files(folder)
        check_order(folder)
