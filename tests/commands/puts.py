"""What becomes of a name under which a file is put: whatever happens, it has its old content or the whole new one.
The file that is put is the dump of `tm record`; the dump and the tape of `tm live`, and the dumps of `tm watch`,
where these are killed."""
import hashlib
import os
import random
import resource
import shutil
import signal
import stat
import subprocess
import tempfile
import threading
import time
from types import SimpleNamespace

from shared import check, equal, examples, expect, program, read, write

TASKS, KEPT, WORDS = 4, 64, 16384
NOBODY = 65534


def chain_of_tasks():
    """An image whose tasks chain each other in turn, each with as many data words and checkpoints as there can be."""
    lines = ["tmi 1", f"ring checks {KEPT}"]
    for task in range(TASKS):
        following = (task + 1) % TASKS
        lines.append(f"task {task} basic {task + 1} {'off' if task else 'auto'} 0 {WORDS}")
        lines.append(f"text {task} {following << 20 | 0x513:08x} {3 << 20 | 0x893:08x} 00000073")
    return "\n".join([*lines, ""]).encode()


def plan_of(instructions):
    return f"tmplan 1\nslice {instructions} 0\n".encode()


def beside(folder):
    """The files that puts have left beside the name."""
    return [name for name in os.listdir(folder) if name.startswith(".tm-put-")]


def start(words, folder):
    return subprocess.Popen([program, *words], cwd=folder, stdout=subprocess.PIPE, stderr=subprocess.PIPE)


class Run:
    """A run, and the dump of it."""

    def __init__(self, folder, image, plan):
        self.paths = [os.path.join(folder, image), os.path.join(folder, plan)]
        check(f"{plan} recorded", self.recorded_as("first"), 0, b"", "", folder)
        self.dump = read(os.path.join(folder, "first"))
        os.remove(os.path.join(folder, "first"))

    def recorded_as(self, name):
        """The words that put its dump under the name."""
        return ["record", *self.paths, name]


def make_runs(folder):
    """Two long runs and a short one, whose files stand in the folder beside a plant without devices."""
    write(os.path.join(folder, "none.tmplant"), b"tmplant 1\n")
    write(os.path.join(folder, "long.tmi"), chain_of_tasks())
    write(os.path.join(folder, "one.tmplan"), plan_of(3 * TASKS * KEPT))
    write(os.path.join(folder, "other.tmplan"), plan_of(3 * TASKS * KEPT + 1))
    for name in ("handover.tmi", "handover.tmplan"):
        shutil.copy(os.path.join(examples, name), folder)
    files = {
        "one": ("long.tmi", "one.tmplan"),
        "other": ("long.tmi", "other.tmplan"),
        "short": ("handover.tmi", "handover.tmplan"),
    }
    return SimpleNamespace(**{name: Run(folder, *pair) for name, pair in files.items()})


def wait_for(is_there, process):
    """Waits until something is there, or the process has ended."""
    while not is_there() and process.poll() is None:
        time.sleep(0.0002)


def check_kills(folder, runs):
    """A process that is killed leaves the old dump or the whole new one: half of the kills come anywhere in the run,
    the others once the new dump is being written."""
    dump, wrong, in_the_midst = os.path.join(folder, "dump"), [], 0
    chance = random.Random(1)
    begin = time.monotonic()
    subprocess.run([program, *runs.one.recorded_as("dump")], cwd=folder, check=True)
    whole_run = time.monotonic() - begin
    for place in range(40):
        write(dump, runs.short.dump)
        process = start(runs.one.recorded_as("dump"), folder)
        if place % 2:
            wait_for(lambda: beside(folder), process)
            time.sleep(chance.uniform(0, whole_run / 8))
        else:
            time.sleep(chance.uniform(0, whole_run))
        process.kill()
        process.communicate()
        left = beside(folder)
        in_the_midst += bool(left)
        if read(dump) not in (runs.short.dump, runs.one.dump):
            wrong.append(f"kill {place}: {len(read(dump))} bytes")
        for name in left:
            os.remove(os.path.join(folder, name))
    expect("killed", wrong)
    expect("killed in the midst", [] if in_the_midst else ["no kill came while a dump was being written"])


def killed(words, names, folder, seed):
    """Calls of these words that are killed, half of them anywhere, the others once something is being put. Each begins
    with old content under the names; yields what they have then."""
    begin = time.monotonic()
    subprocess.run([program, *words], cwd=folder, check=True, stdout=subprocess.DEVNULL)
    whole_run, chance = time.monotonic() - begin, random.Random(seed)
    for place in range(40):
        for name in names:
            write(name, b"old")
        process = start(words, folder)
        if place % 2:
            wait_for(lambda: beside(folder), process)
            time.sleep(chance.uniform(0, whole_run / 4))
        else:
            time.sleep(chance.uniform(0, whole_run))
        process.kill()
        process.communicate()
        yield [read(name) for name in names]
        for name in beside(folder):
            os.remove(os.path.join(folder, name))


def check_live_kills(folder):
    """A `live` that is killed leaves the old dump or the whole new one, and the same of the tape, which is new only where
    the dump is."""
    names = [os.path.join(folder, name) for name in ("live.dump", "live.tape")]
    words = ["live", "long.tmi", "none.tmplant", "live.dump", "--slices=20000", "--len=1", "--tape=live.tape"]
    subprocess.run([program, *words], cwd=folder, check=True, stdout=subprocess.DEVNULL)
    new = [read(name) for name in names]
    wrong = [left for left in killed(words, names, folder, 2) if left not in ([b"old", b"old"], [new[0], b"old"], new)]
    expect("live killed", [f"{list(map(len, left))} bytes" for left in wrong])


def check_watch_kills(folder):
    """A `watch` that is killed leaves whole dumps of the run under the first of its names, and the old content under the
    others: the last dump is known, and of what an observer saw, its closing digest."""
    names = [os.path.join(folder, f"seen.{name}") for name in (0, 1, 2, "end")]
    words = ["watch", "long.tmi", "none.tmplant", "seen", "--slices=768", "--len=1", "--observers=3", "--looks=2"]
    write(os.path.join(folder, "watched.tmplan"), b"tmplan 1\n" + b"slice 1 0\n" * 768)
    whole, wrong, parts = Run(folder, "long.tmi", "watched.tmplan").dump, [], 0
    for left in killed(words, names, folder, 3):
        new = [content for content in left if content != b"old"]
        is_ordered = left == new + [b"old"] * (len(left) - len(new))
        is_whole = all(hashlib.sha256(content[:-32]).digest() == content[-32:] for content in new)
        parts += 0 < len(new) < len(left)
        if not is_ordered or not is_whole or left[-1] not in (b"old", whole):
            wrong.append(f"{list(map(len, left))} bytes")
    expect("watch killed", wrong)
    expect("watch killed in the midst", [] if parts else ["no kill came between two puts"])


def check_two_at_once(folder, runs):
    """Two that record under one name at once both succeed, and one whole dump stands there."""
    dump = os.path.join(folder, "dump")
    for _ in range(10):
        processes = [start(run.recorded_as("dump"), folder) for run in (runs.one, runs.other)]
        told = [(*process.communicate(), process.returncode) for process in processes]
        equal("two at once", told, [(b"", b"", 0)] * 2)
        expect("two at once: dump", [] if read(dump) in (runs.one.dump, runs.other.dump) else ["a mixture"])
    equal("two at once: beside", beside(folder), [])


def limited():
    """Files may grow to 64 KiB, as on a disk that is full then."""
    signal.signal(signal.SIGXFSZ, signal.SIG_IGN)
    resource.setrlimit(resource.RLIMIT_FSIZE, (65536, 65536))


def check_full_disk(folder, runs):
    """What stood there survives a disk that is full, and nothing is left where nothing was."""
    dump = os.path.join(folder, "dump")
    write(dump, runs.short.dump)
    check("full disk", runs.one.recorded_as("dump"), 9, b"", "tm: write fault", folder, preexec_fn=limited)
    equal("full disk: dump", read(dump), runs.short.dump)
    before = sorted(os.listdir(folder))
    check("full disk, new name", runs.one.recorded_as("new"), 9, b"", "tm: write fault", folder, preexec_fn=limited)
    equal("full disk: files", sorted(os.listdir(folder)), before)


def check_small_file_system(folder, runs):
    """As above, in a file system of 1 MiB, where one can be mounted."""
    small = os.path.join(folder, "small")
    os.mkdir(small)
    mount = ["mount", "-t", "tmpfs", "-o", "size=1m", "tmpfs", small]
    if not shutil.which("mount") or subprocess.run(mount, stderr=subprocess.DEVNULL).returncode:
        return
    try:
        write(os.path.join(small, "dump"), runs.short.dump)
        check("small file system", runs.one.recorded_as("small/dump"), 9, b"", "tm: write fault", folder)
        equal("small file system: dump", read(os.path.join(small, "dump")), runs.short.dump)
        equal("small file system: files", os.listdir(small), ["dump"])
    finally:
        subprocess.run(["umount", small], check=True)


def check_fifo(folder, runs):
    """A FIFO gets the bytes, and stays."""
    fifo, got = os.path.join(folder, "fifo"), []
    os.mkfifo(fifo)
    reader = threading.Thread(target=lambda: got.append(read(fifo)))
    reader.start()
    check("fifo", runs.short.recorded_as("fifo"), 0, b"", "", folder)
    reader.join(20)
    equal("fifo: bytes", got, [runs.short.dump])
    expect("fifo: kind", [] if stat.S_ISFIFO(os.stat(fifo).st_mode) else ["it is none any more"])


def check_standard_output(folder, runs):
    """The path of standard output gets the bytes, whether that is a pipe or a file, and a device that is full fails."""
    check("/dev/stdout", runs.short.recorded_as("/dev/stdout"), 0, runs.short.dump, "", folder)
    output = os.path.join(folder, "output")
    with open(output, "wb") as file:
        number = os.fstat(file.fileno()).st_ino
        subprocess.run([program, *runs.short.recorded_as("/dev/stdout")], cwd=folder, stdout=file, check=True)
    equal("/dev/stdout, a file", (read(output), os.stat(output).st_ino), (runs.short.dump, number))
    check("/dev/full", runs.short.recorded_as("/dev/full"), 9, b"", "tm: write fault", folder)
    check("/dev/null", runs.short.recorded_as("/dev/null"), 0, b"", "", folder)


def check_links(folder, runs):
    """A link stays, and what it leads to has the dump, also where nothing stood there."""
    os.mkdir(os.path.join(folder, "elsewhere"))
    write(os.path.join(folder, "elsewhere", "there"), b"old")
    links = {
        "link": "elsewhere/there",
        "missing": "elsewhere/missing",
        "absolute": os.path.join(folder, "elsewhere", "absolute"),
        "elsewhere/second": "../link",
    }
    for link, target in links.items():
        os.symlink(target, os.path.join(folder, link))
    ends = (("link", "there"), ("missing", "missing"), ("absolute", "absolute"), ("elsewhere/second", "there"))
    for link, end in ends:
        run = runs.other if link == "link" else runs.short
        check(f"{link} as a link", run.recorded_as(link), 0, b"", "", folder)
        equal(f"{link}: dump", read(os.path.join(folder, "elsewhere", end)), run.dump)
        equal(f"{link}: target", os.readlink(os.path.join(folder, link)), links[link])
    os.symlink("circle", os.path.join(folder, "circle"))
    check("a circle of links", runs.short.recorded_as("circle"), 9, b"", "tm: write fault", folder)
    equal("links: beside", beside(folder) + beside(os.path.join(folder, "elsewhere")), [])


def check_names(folder, runs):
    """A name as long as there can be one, a longer one, and a name beside which another put's file stands."""
    longest = "n" * 255
    check("a name of 255 bytes", runs.short.recorded_as(longest), 0, b"", "", folder)
    equal("a name of 255 bytes: dump", read(os.path.join(folder, longest)), runs.short.dump)
    check("a name of 256 bytes", runs.short.recorded_as(longest + "n"), 9, b"", "tm: write fault", folder)
    other = os.path.join(folder, ".tm-put-0")
    write(other, b"another's")
    check("beside another put", runs.short.recorded_as("dump"), 0, b"", "", folder)
    equal("beside another put: its file", (read(other), beside(folder)), (b"another's", [".tm-put-0"]))
    os.remove(other)


def check_permissions(folder, runs):
    """The permissions stay; what may not be written stays, in a folder of which it is the same, as nobody's user."""
    dump = os.path.join(folder, "dump")
    write(dump, b"old")
    os.chmod(dump, 0o640)
    check("permissions", runs.short.recorded_as("dump"), 0, b"", "", folder)
    equal("permissions: mode", stat.S_IMODE(os.stat(dump).st_mode), 0o640)
    for what, mode, folder_mode in (("a file", 0o444, 0o777), ("a folder", 0o666, 0o555)):
        closed = tempfile.mkdtemp(dir=folder)
        write(os.path.join(closed, "dump"), b"old")
        os.chmod(os.path.join(closed, "dump"), mode)
        os.chmod(closed, folder_mode)
        check_closed(f"{what} that is only read", closed, runs)
        os.chmod(closed, 0o777)


def check_closed(what, closed, runs):
    """Another user than root can't put a dump there."""
    other_user = {"user": NOBODY} if os.geteuid() == 0 else {}
    its_program = os.path.join(os.path.dirname(closed), "program")
    shutil.copy(program, its_program)
    words = [its_program, *runs.short.recorded_as("dump")]
    ended = subprocess.run(words, cwd=closed, capture_output=True, timeout=120, **other_user)
    equal(what, (ended.returncode, ended.stdout, ended.stderr), (9, b"", b"tm: write fault\n"))
    equal(f"{what}: content", (read(os.path.join(closed, "dump")), os.listdir(closed)), (b"old", ["dump"]))


def main():
    with tempfile.TemporaryDirectory() as folder:
        os.chmod(folder, 0o755)
        runs = make_runs(folder)
        check_kills(folder, runs)
        check_live_kills(folder)
        check_watch_kills(folder)
        check_two_at_once(folder, runs)
        check_full_disk(folder, runs)
        check_small_file_system(folder, runs)
        check_fifo(folder, runs)
        check_standard_output(folder, runs)
        check_links(folder, runs)
        check_names(folder, runs)
        check_permissions(folder, runs)
