"""The edge of every command over real files: standard output that takes nothing, files that are none, names as long as
can be. Each call gets its line and status, and every file that stood there stands there still."""
import fcntl
import glob
import os
import resource
import signal
import subprocess
import tempfile
import threading

from shared import check, equal, examples, expect, program, read, write

IMAGE = os.path.join(examples, "cell", "cell.tmi")
PLAN = os.path.join(examples, "cell", "cell.tmplan")
EXECUTABLE = os.path.join(examples, "c", "apart", "control")
NOBODY = 65534
READ_FAULT, WRITE_FAULT = (3, b"tm: read fault\n"), (9, b"tm: write fault\n")


def live(folder, dump="live.dump"):
    """A call of `live` without devices; a dump without a path stands in the folder."""
    plant = os.path.join(folder, "none.tmplant")
    write(plant, b"tmplant 1\n")
    return ["live", IMAGE, plant, os.path.join(folder, dump), "--slices=5", "--len=9"]


def watch(folder, prefix="seen"):
    """A call of `watch` without devices; a prefix without a path stands in the folder."""
    return ["watch", *live(folder)[1:3], os.path.join(folder, prefix), "--slices=5", "--len=9", "--observers=2", "--looks=2"]


def printing(folder, dump):
    """A call of each command that prints; what some put as well goes to a device that takes all."""
    for name in ("null.0", "null.1", "null.end"):
        os.symlink("/dev/null", os.path.join(folder, name))
    return [
        live(folder, "/dev/null"),
        watch(folder, "null"),
        ["trace", IMAGE, PLAN],
        ["points", IMAGE, dump],
        ["replay", IMAGE, dump, "--from", "0"],
        ["replay", IMAGE, dump, "--from", "0", "--workers", "3"],
        ["--help"],
        ["--version"],
    ]


def load(folder, new="no.tmi"):
    """A call of `load`; the new image stands in the folder where its name has no path."""
    return ["load", IMAGE, "1", EXECUTABLE, os.path.join(folder, new)]


def ended(words, **options):
    call = subprocess.run([program, *words], stderr=subprocess.PIPE, timeout=120, **options)
    return call.returncode, call.stderr


def full_pipe():
    """A pipe that takes no more and doesn't wait."""
    reading, writing = os.pipe()
    fcntl.fcntl(writing, fcntl.F_SETFL, fcntl.fcntl(writing, fcntl.F_GETFL) | os.O_NONBLOCK)
    try:
        while True:
            os.write(writing, bytes(4096))
    except BlockingIOError:
        return reading, writing


def limited():
    """A file may grow to 20 bytes."""
    signal.signal(signal.SIGXFSZ, signal.SIG_IGN)
    resource.setrlimit(resource.RLIMIT_FSIZE, (20, 20))


def check_outputs(folder, words):
    """Standard output that is closed, full, not ready, or a pipe that nobody reads, and one that ends in the midst."""
    name = " ".join(words[:1] + words[3:])
    equal(f"{name}: closed", ended(words, preexec_fn=lambda: os.close(1)), WRITE_FAULT)
    with open("/dev/full", "wb") as full:
        equal(f"{name}: full", ended(words, stdout=full), WRITE_FAULT)
    reading, writing = full_pipe()
    equal(f"{name}: not ready", ended(words, stdout=writing), WRITE_FAULT)
    os.close(reading)
    equal(f"{name}: nobody reads", ended(words, stdout=writing), WRITE_FAULT)
    os.close(writing)
    text = subprocess.run([program, *words], capture_output=True, check=True).stdout
    output = os.path.join(folder, "output")
    with open(output, "wb") as file:
        wanted = WRITE_FAULT if len(text) > 20 else (0, b"")
        equal(f"{name}: ends in the midst", ended(words, stdout=file, preexec_fn=limited), wanted)
    equal(f"{name}: its bytes", read(output), text[:20])


def check_closed(folder, dump):
    """Without standard files, what is opened gets their numbers: the dump is put whole, and no line gets into it."""
    for what, closed in (("all", (0, 1, 2)), ("input", (0,)), ("output", (1,)), ("errors", (2,))):
        name = os.path.join(folder, f"{what}.dump")

        def close():
            for number in closed:
                os.close(number)

        for plan, status in ((PLAN, 0), (PLAN + ".missing", 3)):
            words = [program, "record", IMAGE, plan, name]
            call = subprocess.run(words, stderr=subprocess.PIPE, timeout=120, preexec_fn=close)
            told = b"" if status == 0 or 2 in closed else READ_FAULT[1]
            equal(f"record without {what}", (call.returncode, call.stderr), (status, told))
            equal(f"record without {what}: dump", read(name), read(dump))


def check_files(folder, dump):
    """A first and a second file that can't be read, for each command that reads two; nothing is put."""
    fifo, closed = os.path.join(folder, "fifo"), os.path.join(folder, "closed")
    os.mkfifo(fifo)
    write(closed, b"tmi 1\n")
    os.chmod(closed, 0)
    bad = [folder, f"{folder}/missing/file", f"{IMAGE}/below", "n" * 255, "n" * 256, "n" * 4096, "/" + "d/" * 2100]
    user = {"user": NOBODY} if os.geteuid() == 0 else {}
    calls = [["trace", IMAGE, PLAN], ["record", IMAGE, PLAN, os.path.join(folder, "no.dump")]]
    calls += [["points", IMAGE, dump], ["replay", IMAGE, dump, "--from", "0"], live(folder), watch(folder), load(folder)]
    for words in calls:
        for place in (1, 3) if words[0] == "load" else (1, 2):
            for name in bad:
                other = words[:place] + [name] + words[place + 1 :]
                check(f"{words[0]}: {name[:20]} as file {place}", other, 3, b"", "tm: read fault", folder)
            check_unreadable(folder, words[:place] + [closed] + words[place + 1 :], user)
            check_fifo(words, place, fifo)
    expect("nothing is put", [name for name in ("no.dump", "live.dump", "no.tmi") if name in os.listdir(folder)])


def check_unreadable(folder, words, user):
    """A file that may not be read, by another user than root."""
    copied = os.path.join(folder, "program")
    if not os.path.exists(copied):
        write(copied, read(program))
        os.chmod(copied, 0o755)
    call = subprocess.run([copied, *words], capture_output=True, timeout=120, **user)
    got = (call.returncode, call.stdout, call.stderr)
    equal(f"{words[0]}: a file that may not be read", got, (3, b"", READ_FAULT[1]))


def check_fifo(words, place, fifo):
    """A FIFO is read to its end, as a file would be."""
    text = subprocess.run([program, *words], stdout=subprocess.PIPE, timeout=120, check=True).stdout
    writer = threading.Thread(target=write, args=(fifo, read(words[place])))
    writer.start()
    check(f"{words[0]}: a FIFO as file {place}", [*words[:place], fifo, *words[place + 1 :]], 0, text, "")
    writer.join(20)
    if words[0] in ("record", "live", "watch", "load"):
        for name in glob.glob(f"{words[4 if words[0] == 'load' else 3]}*"):
            os.remove(name)


def check_names(folder, dump):
    """Names under which nothing can be put, and odd ones under which it can."""
    before = sorted(os.listdir(folder))
    for name in (".", "..", f"{folder}/", f"{folder}/new/", f"{IMAGE}/below", "n" * 4096, "d/" * 2047 + "d"):
        check(f"record as {name[:20]}", ["record", IMAGE, PLAN, name], 9, b"", "tm: write fault", folder)
        check(f"load as {name[:20]}", [*load(folder)[:4], name], 9, b"", "tm: write fault", folder)
        words = [*live(folder)[:3], name, "--slices=5", "--len=9", "--tape=tape"]
        check(f"live as {name[:20]}", words, 9, b"", "tm: write fault", folder)
    for prefix in (f"{folder}/new/", f"{IMAGE}/below", "n" * 4096, "d/" * 2047 + "d"):
        words = [*watch(folder)[:3], prefix, *watch(folder)[4:]]
        check(f"watch as {prefix[:20]}", words, 9, b"", "tm: write fault", folder)
    equal("record, live, watch, load: files", sorted(os.listdir(folder)), before)
    for name in (".", f"{folder}/new/", "n" * 4096):
        check(f"the tape as {name[:20]}", [*live(folder), "--tape", name], 9, b"", "tm: write fault", folder)
    equal("the dump before the tape", sorted(os.listdir(folder)), sorted([*before, "live.dump"]))
    for name in ("two\nlines", "a word", "\u00e9\U0001f600", "x=--from"):
        check(f"record as {name!r}", ["record", IMAGE, PLAN, name], 0, b"", "", folder)
        equal(f"record as {name!r}: dump", read(os.path.join(folder, name)), read(dump))


def main():
    with tempfile.TemporaryDirectory() as folder:
        os.chmod(folder, 0o755)
        dump = os.path.join(folder, "cell.dump")
        check("cell recorded", ["record", IMAGE, PLAN, dump], 0, b"", "")
        for words in printing(folder, dump):
            check_outputs(folder, words)
        check_closed(folder, dump)
        check_files(folder, dump)
        check_names(folder, dump)
