"""`tm watch`: what is put and printed without devices; for plants whose devices run freely beside the slices and the
observers, that each file is the dump of a beginning of one run and the last that of the whole, and that each can be
replayed; what stands after a put that failed; and the calls that are refused."""
import os
import subprocess
import tempfile

from commands.live import NO_DEVICE, ONE_TASK, PREEMPTED, wrong_audit
from dumps import decode, shape_of
from finder import accepted, text_from
from shared import check, equal, examples, expect, make_files, program, read, run, write
from tapes import NO_PORTS, Clock, tape_text

RINGS = "ring control 65536\nring data 65536\n"
READ_PORTS = " ".join(f"{port << 20 | 0x513:08x} 01200893 00000073" for port in range(4))
QUIET = (0, NO_PORTS)
TIMES, TRIES = 3, 20
OBSERVERS = 4


def clocks():
    """Images by name: one task that a line starts; one that reads a port and writes it out; one that reads four; fifteen
    tasks, each with a line; one that faults beside one that doesn't."""
    relay = read(os.path.join(examples, "relay.tmi")).decode().split("ring ")[0]
    fifteen = "".join(
        f"task {number} basic {number + 1} off 0 1\ntext {number} 00200893 00000073\nline {number} activate {number}\n"
        for number in range(1, 16)
    )
    return {
        "spin": Clock(PREEMPTED + RINGS, 1, [2]),
        "relay": Clock(relay + RINGS + "ring checks 64\n", 4, [8], 1),
        "ports": Clock(PREEMPTED.replace("text 1 ", f"text 1 {READ_PORTS} ") + RINGS, 1, [14], 4),
        "fifteen": Clock("".join(PREEMPTED.splitlines(True)[:3]) + fifteen + RINGS, 1, [2] * 15),
        "fault": Clock(PREEMPTED + "task 2 basic 3 off 0 1\ntext 2 00000000\nline 2 activate 2\n" + RINGS, 1, [2, 0]),
    }


def plants():
    """Plants by name, each with the name of its image, its slices and their length, and the looks of each observer."""
    devices = [f"device {number}\n" for number in range(8)]
    every_line = "".join(devices) + "".join(f"raise {line % 8} {line} {3 + line}\n" for line in range(1, 16))
    storm = "".join(devices) + "".join(f"raise {number} 1 131072\n" for number in range(8))
    rounds = "".join(f"set 0 {value % 4} {value}\nset 0 1 {value}\n" for value in (1, 2, 3, 4) * 20)
    waits = "raise 0 1 1\nhold 0 1 65536\n"
    two_waits = "device 0\ndevice 1\n" + waits * 20 + waits.replace(" 0 1", " 1 1") * 20
    return {
        "three raises": ("spin", "device 0\nraise 0 1 3\n", 10, 4, 3),
        "two devices on one line": ("spin", "device 0\ndevice 1\nraise 0 1 50\nraise 1 1 50\n", 40, 6, 50),
        "an idle device": ("spin", "device 0\ndevice 1\nraise 1 1 1\n", 10, 4, 1),
        "a storm": ("spin", storm, 1000, 10, 1000),
        "a long wait": ("spin", "device 0\n" + waits * 300, 20000, 7, 1000),
        "no slice": ("spin", "device 0\nraise 0 1 9\n", 0, 4, 7),
        "no device": ("relay", "", 3000, 9, 300),
        "ports and lines": ("relay", f"device 0\ndevice 1\n{rounds}raise 1 1 30\n", 100, 20, 20),
        "a device that waits": ("relay", "device 0\n" + waits * 20, 200, 9, 100),
        "two that wait": ("relay", two_waits, 60, 9, 2),
        "ports in rounds": ("ports", f"device 0\ndevice 1\n{rounds}{waits.replace(' 0 1', ' 1 1') * 40}", 300, 15, 200),
        "every line": ("fifteen", every_line, 50, 30, 40),
        "a fault": ("fault", "device 0\ndevice 1\n" + waits * 30 + "hold 1 1 50\nraise 1 2 1\n", 20000, 11, 60),
        "a fault in a storm": ("fault", "device 0\ndevice 1\nraise 0 1 131072\nhold 1 1 50\nraise 1 2 1\n", 20000, 11, 60),
    }


def names_of(prefix, observers):
    return [*(f"{prefix}.{number}" for number in range(observers)), f"{prefix}.end"]


def check_dump(folder, what, name, tape):
    """The dump is that of the tape, and every listed point is one that it has all of, from which a replay tells the end
    of the tape's trace."""
    check(f"{what}: record", ["record", "i", tape, "again"], 0, b"", "", folder)
    dump = read(os.path.join(folder, name))
    equal(f"{what}: dump", dump == read(os.path.join(folder, "again")), True)
    words, caps = shape_of(read(os.path.join(folder, "i")))
    points = accepted(decode(dump, words, caps))
    check(f"{what}: points", ["points", "i", name], 0, "".join(f"{point}\n" for point in points).encode(), "", folder)
    text = run(["trace", "i", tape], folder).stdout
    for point in points:
        told = text_from(text, words, point)
        check(f"{what}: replay", ["replay", "i", name, "--from", str(point)], 0, told, "", folder)


def watch(folder, devices, slices, length, looks, observers=OBSERVERS, **options):
    """One call beside a plant on the image `i`: its plant, how it ended, and the names that it puts."""
    plant = "tmplant 1\n" + devices
    write(os.path.join(folder, "p"), plant.encode())
    words = ["watch", "i", "p", "seen", f"--slices={slices}", "--len", str(length)]
    ended = run([*words, f"--observers={observers}", f"--looks={looks}"], folder, **options)
    return plant, ended, names_of("seen", observers)


def check_plant(folder, what, clock, devices, slices, length, looks, **options):
    """One run of a plant: what was taken is told by the last dump, and the other dumps are of its beginnings, however the
    threads were interleaved."""
    write(os.path.join(folder, "i"), clock.text.encode())
    plant, ended, names = watch(folder, devices, slices, length, looks, **options)
    equal(f"{what}: status", (ended.returncode, ended.stderr), (0, b""))
    dumps = [read(os.path.join(folder, name)) for name in names]
    try:
        *tapes, whole = [clock.tape_of(dump, length) for dump in dumps]
    except (ValueError, StopIteration) as wrong:
        expect(f"{what}: dumps", [repr(wrong)])
        return
    expect(f"{what}: beginnings", [str(len(tape)) for tape in tapes if tape != whole[: len(tape)]])
    masks = None if clock.faults else [mask for mask, _ in whole]
    equal(f"{what}: slices", clock.faults or len(whole) == slices, True)
    expect(f"{what}: audit", wrong_audit(ended.stdout.decode(), plant, slices, masks))
    for dump, name, tape in {dump: (dump, name, tape) for dump, name, tape in zip(dumps, names, [*tapes, whole])}.values():
        write(os.path.join(folder, "t"), tape_text(tape, length).encode())
        check_dump(folder, f"{what}: {name}", name, "t")


def check_few(folder, what, image, devices, length, few):
    """As above, of an image that doesn't tell the time: the masks of the tape are, as far as they show, one of a few."""
    write(os.path.join(folder, "i"), image.encode())
    plant, ended, names = watch(folder, devices, 30, length, 20)
    equal(f"{what}: status", (ended.returncode, ended.stderr), (0, b""))
    expect(f"{what}: audit", wrong_audit(ended.stdout.decode(), plant, 30, None))
    known = {}
    for masks in few:
        tape = "t" + "".join(map(str, masks))
        write(os.path.join(folder, tape), tape_text([(mask, NO_PORTS) for mask in masks], length).encode())
        check(f"{what}: record", ["record", "i", tape, "again"], 0, b"", "", folder)
        known[read(os.path.join(folder, "again"))] = masks, tape
    found = [known.get(read(os.path.join(folder, name))) for name in names]
    wrong = [name for name, pair in zip(names, found) if not pair]
    expect(f"{what}: dumps", wrong)
    if wrong:
        return
    whole = found[-1][0]
    expect(f"{what}: beginnings", [str(masks) for masks, _ in found if masks != whole[: len(masks)]])
    equal(f"{what}: a slice was run", bool(whole), True)
    for name, (_, tape) in zip(names, found):
        check_dump(folder, f"{what}: {name}", name, tape)


def check_parts(folder):
    """Some observer of a long run saw a part of it last, in some try: where none ever does, all looks come before
    the slices or behind them."""
    clock, slices, found = clocks()["spin"], 1 << 16, []
    write(os.path.join(folder, "i"), clock.text.encode())
    for _ in range(TRIES):
        _, ended, names = watch(folder, "", slices, 1, 1000)
        equal("a long run", (ended.returncode, ended.stdout, ended.stderr), (0, b"slices 65536\n", b""))
        seen = {name: len(clock.tape_of(read(os.path.join(folder, name)), 1)) for name in names}
        equal("a long run: end", seen.pop("seen.end"), slices)
        found = [(name, number) for name, number in seen.items() if 0 < number < slices]
        if found:
            break
    expect("a long run: parts", [] if found else [f"no observer saw a part of it in {TRIES} runs"])
    for name, number in found:
        write(os.path.join(folder, "t"), b"tmplan 1\n" + b"slice 1 0\n" * number)
        check_dump(folder, f"a long run: {name}", name, "t")


def check_without_devices(folder):
    """Nothing is raised: the run and its audit are known. The one task ends in the first slice, so a dump that was seen
    has the length of no slice or of all."""
    for name, text in (("i", ONE_TASK), ("p", NO_DEVICE), ("t", tape_text([QUIET] * 2, 2)), ("none", tape_text([], 2))):
        write(os.path.join(folder, name), text.encode())
    for name, length, tape in (("whole", 508, "t"), ("boot", 269, "none")):
        check(f"no devices: {name}", ["record", "i", tape, name], 0, b"", "", folder)
        equal(f"no devices: {name}", len(read(os.path.join(folder, name))), length)
    whole, boot = (read(os.path.join(folder, name)) for name in ("whole", "boot"))
    for options in (
        ["--slices", "2", "--len", "2", "--observers", "2", "--looks", "3"],
        ["--looks=3", "--observers=2", "--len=2", "--slices=2"],
        ["--looks=00000000000000000003", "--len", "2", "--slices=2", "--observers", "02"],
    ):
        check("no devices", ["watch", "i", "p", "W", *options], 0, b"slices 2\n", "", folder)
        put = {name: read(os.path.join(folder, name)) for name in os.listdir(folder) if name.startswith("W.")}
        equal("no devices: names", sorted(put), ["W.0", "W.1", "W.end"])
        equal("no devices: end", put.pop("W.end") == whole, True)
        expect("no devices: seen", [f"{name}: {len(dump)}" for name, dump in put.items() if dump not in (whole, boot)])
        for name in names_of("W", 2):
            check_dump(folder, f"no devices: {name}", name, "t" if read(os.path.join(folder, name)) == whole else "none")
            os.remove(os.path.join(folder, name))
    check("options anywhere", ["watch", "--looks=1", "i", "--len=2", "p", "--slices=2", "W", "--observers=1"], 0, b"slices 2\n", "", folder)
    equal("options anywhere: end", read(os.path.join(folder, "W.end")) == whole, True)


def check_names(folder):
    """Each number of observers puts its own names and no other; names that stand for odd files are names as any."""
    for name, text in (("i", ONE_TASK), ("p", NO_DEVICE)):
        write(os.path.join(folder, name), text.encode())
    size = ["--slices=2", "--len=2", "--looks=2"]
    for observers in range(4, 0, -1):
        for name in names_of("W", 4):
            write(os.path.join(folder, name), b"old")
        check(f"{observers} observers", ["watch", "i", "p", "W", *size, f"--observers={observers}"], 0, b"slices 2\n", "", folder)
        new = [name for name in sorted(os.listdir(folder)) if name.startswith("W.") and read(os.path.join(folder, name)) != b"old"]
        equal(f"{observers} observers: names", new, names_of("W", observers))
        for name in names_of("W", 4):
            os.remove(os.path.join(folder, name))
    os.mkdir(os.path.join(folder, "there"))
    for prefix in ("there/", "two\nlines", "\u00e9 \U0001f600", "x=--from", "n" * 251):
        check(f"the prefix {prefix[:20]!r}", ["watch", "i", "p", prefix, *size, "--observers=1"], 0, b"slices 2\n", "", folder)
        for name in names_of(prefix, 1):
            equal(f"the prefix {prefix[:20]!r}: points", run(["points", "i", name], folder).returncode, 0)
    write(os.path.join(folder, "W.end"), ONE_TASK.encode())
    check("the image as a name", ["watch", "W.end", "p", "W", *size, "--observers=1"], 0, b"slices 2\n", "", folder)
    equal("the image as a name: replaced", run(["points", "i", "W.end"], folder).stdout, b"0\n1\n2\n")


def check_failed_puts(folder):
    """The puts before one that fails are whole, and its own name, those behind it and all others are as before; nothing
    is printed. Where the text alone can't be written, every put is whole."""
    for name, text in (("i", ONE_TASK), ("p", NO_DEVICE)):
        write(os.path.join(folder, name), text.encode())
    words = ["watch", "i", "p", "W", "--slices=2", "--len=2", "--observers=3", "--looks=2"]
    names = names_of("W", 3)
    for place, failing in enumerate(names):
        for what, make in (("a folder", os.mkdir), ("a full device", lambda path: os.symlink("/dev/full", path))):
            for name in names:
                write(os.path.join(folder, name), b"old")
            os.remove(os.path.join(folder, failing))
            make(os.path.join(folder, failing))
            check(f"{what} as {failing}", words, 9, b"", "tm: write fault", folder)
            check_whole(f"{what} as {failing}", folder, names[:place])
            later = [read(os.path.join(folder, name)) for name in names[place + 1 :]]
            equal(f"{what} as {failing}: later names", later, [b"old"] * len(later))
            equal(f"{what} as {failing}: files", sorted(os.listdir(folder)), sorted(["i", "p", *names]))
            os.rmdir(os.path.join(folder, failing)) if what == "a folder" else os.remove(os.path.join(folder, failing))
    for name in names:
        write(os.path.join(folder, name), b"old")
    with open("/dev/full", "wb") as full:
        told = run_into(words, folder, full)
    equal("a full output", told, (9, b"tm: write fault\n"))
    check_whole("a full output", folder, names)
    long = "n" * 252
    check("the last name too long", [*words[:3], long, *words[4:]], 9, b"", "tm: write fault", folder)
    check_whole("the last name too long", folder, names_of(long, 3)[:-1])
    equal("the last name too long: files", len(os.listdir(folder)), 2 + 4 + 3)


def run_into(words, folder, output):
    """The status and the line of a call whose text goes into a file."""
    ended = subprocess.run([program, *words], cwd=folder, stdout=output, stderr=subprocess.PIPE, timeout=120)
    return ended.returncode, ended.stderr


def check_whole(what, folder, names):
    """The names have whole dumps of the image `i`."""
    wrong = [name for name in names if run(["points", "i", name], folder).returncode]
    expect(f"{what}: whole", wrong)


def refused_words(image, plant, prefix):
    """Words that are of no form, each by what is wrong in them."""
    numbers = {"slices": "2", "len": "2", "observers": "2", "looks": "2"}
    names = [image, plant, prefix]
    whole = [f"--{option}={value}" for option, value in numbers.items()]
    yield "no options", names
    yield "two names", [image, plant, *whole]
    yield "a fourth name", [*names, prefix, *whole]
    yield "a tape", [*names, *whole, "--tape=t"]
    yield "a dash as the prefix", [image, plant, "-", *whole]
    yield "a prefix with a dash", [image, plant, "-w", *whole]
    yield "an empty prefix", [image, plant, "", *whole]
    yield "an empty image", ["", plant, prefix, *whole]
    yield "a short option", [*names, *whole[:3], "--look=2"]
    for place, option in enumerate(numbers):
        others = whole[:place] + whole[place + 1 :]
        yield f"no {option}", [*names, *others]
        yield f"{option} twice", [*names, *whole, f"--{option}=2"]
        yield f"{option} without a value", [*names, *others, f"--{option}"]
        most = {"slices": 1 << 20, "len": 1 << 20, "observers": 4, "looks": 1000}[option]
        least = [] if option in ("slices", "len") else ["0"]
        for value in (*least, str(most + 1), "18446744073709551618", "0" * 20 + "2", "", "-1", "+1", "0x1", "2 ", "two"):
            yield f"{option} {value!r}", [*names, *others, f"--{option}={value}"]


def check_refusals(folder):
    """What is refused puts and prints nothing."""
    image, plant, prefix = "good.tmi", "good.tmplant", "refused"
    write(os.path.join(folder, plant), NO_DEVICE.encode())
    write(os.path.join(folder, "bad.tmplant"), b"tmplant 1\ndevice 0\nraise 0 16 1\n")
    size = ["--slices=1", "--len=1", "--observers=2", "--looks=1"]
    refused = [(what, words, 2, "tm: words") for what, words in refused_words(image, plant, prefix)]
    refused += [
        ("words before files", ["missing.tmi", "missing.tmplant", prefix, *size[:3]], 2, "tm: words"),
        ("a missing image", ["missing.tmi", "bad.tmplant", prefix, *size], 3, "tm: read fault"),
        ("a missing plant", [image, "missing.tmplant", prefix, *size], 3, "tm: read fault"),
        ("a folder as the plant", [image, "a_folder", prefix, *size], 3, "tm: read fault"),
        ("an image that is none", ["not.tmi", "missing.tmplant", prefix, *size], 4, "tm: image line 1 form"),
        ("a plan as the plant", [image, "good.tmplan", prefix, *size], 5, "tm: plan line 1 form"),
        ("a line that there isn't", [image, "bad.tmplant", prefix, *size], 5, "tm: plan line 3 range"),
        ("an image past 8 MiB", ["long.tmi", plant, prefix, *size], 10, "tm: too long 1"),
        ("a plant past 128 MiB", [image, "long.tmplan", prefix, *size], 10, "tm: too long 2"),
        ("a folder that isn't there", [image, plant, "missing/w", *size], 9, "tm: write fault"),
        ("a folder of a file", [image, plant, f"{image}/w", *size], 9, "tm: write fault"),
        ("a name that is too long", [image, plant, "n" * 254, *size], 9, "tm: write fault"),
    ]
    before = sorted(os.listdir(folder))
    for what, words, status, err in refused:
        check(f"watch: {what}", ["watch", *words], status, b"", err, folder)
        expect(f"watch: {what}: files", [name for name in os.listdir(folder) if name not in before])


def one_processor():
    os.sched_setaffinity(0, {min(os.sched_getaffinity(0))})


def in_folder(check_in, *what, **options):
    """A check in a folder of its own."""
    with tempfile.TemporaryDirectory() as folder:
        check_in(folder, *what, **options)


def main():
    for check_in in (check_without_devices, check_names, check_failed_puts, check_parts):
        in_folder(check_in)
    images = clocks()
    for what, (image, *plant) in plants().items():
        for _ in range(TIMES):
            in_folder(check_plant, what, images[image], *plant)
    for what in ("two devices on one line", "a device that waits"):
        image, *plant = plants()[what]
        in_folder(check_plant, f"{what}, on one processor", images[image], *plant, preexec_fn=one_processor)
    for _ in range(TIMES):
        in_folder(check_few, "an ended run", ONE_TASK, "device 0\nraise 0 0 9\n", 5, [(), (0,)])
        raised = "device 0\nraise 0 1 9\nset 0 3 7\n"
        in_folder(check_few, "empty slices", PREEMPTED, raised, 0, [(), (0,), (2,), (0, 2)])
    with tempfile.TemporaryDirectory() as folder:
        make_files(folder)
        check_refusals(folder)
