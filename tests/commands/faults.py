"""Calls of the system that go wrong, by a library of ours before the C library; skipped without a C compiler."""
import os
import shutil
import subprocess
import tempfile

from shared import check, equal, examples, expect, read, run, top, write

CELL = [os.path.join(examples, "cell", name) for name in ("cell.tmi", "cell.tmplan")]
STEP = 1.2


def check_puts(folder, under):
    """Whichever step of a put fails, the old content stays and nothing is left beside it; an interruption is none."""
    words = ["record", "handover.tmi", "handover.tmplan", os.path.join(folder, "dump")]
    write(words[-1], b"old")
    for fault in ("fsync", "rename"):
        check(f"{fault} fails", words, 9, b"", "tm: write fault", examples, env=under(fault))
        equal(f"{fault} fails: files", [(name, read(os.path.join(folder, name))) for name in os.listdir(folder)], [("dump", b"old")])
    check("a put", words, 0, b"", "", examples)
    dump = read(words[-1])
    for fault in ("interruption", "half"):
        write(words[-1], b"old")
        check(f"a put under {fault}", words, 0, b"", "", examples, env=under(fault))
        equal(f"a put under {fault}: dump", read(words[-1]), dump)


def check_texts(under):
    """A text is whole where writes are interrupted or take a part."""
    text = read(os.path.join(examples, "handover.out"))
    for fault in ("interruption", "half"):
        check(f"a text under {fault}", ["trace", "handover.tmi", "handover.tmplan"], 0, text, "", examples, env=under(fault))


def memory_calls(folder):
    """Calls by name, in the folder that has their files: of each command on a small run, and of some on a large one."""
    for name, content in (("plant", b"tmplant 1\ndevice 0\nset 0 1 7\n"), ("none", b"tmplant 1\n")):
        write(os.path.join(folder, name), content)
    small = [os.path.join(examples, name) for name in ("handover.tmi", "handover.tmplan")]
    for name, files in (("small", small), ("large", CELL)):
        check(f"{name} recorded", ["record", *files, f"{name}.dump"], 0, b"", "", folder)
        yield ["trace", *files]
        yield ["record", *files, "dump"]
        yield ["points", files[0], f"{name}.dump"]
        yield ["replay", files[0], f"{name}.dump", "--from", "0"]
        yield ["replay", files[0], f"{name}.dump", "--from", "0", "--workers", "4"]
        yield ["load", files[0], "1", os.path.join(examples, "c", "apart", "control"), "new"]
        yield ["live", files[0], "none", "dump", "--slices=9", "--len=5", "--tape=tape"]
        yield ["live", files[0], "plant", "dump", "--slices=9", "--len=5"]
        yield ["watch", files[0], "none", "seen", "--slices=9", "--len=5", "--observers=1", "--looks=2"]
        yield ["watch", files[0], "plant", "seen", "--slices=9", "--len=5", "--observers=4", "--looks=9"]
    yield ["make", "0"]


def files_of(folder):
    return {name: read(os.path.join(folder, name)) for name in os.listdir(folder)}


def keep_only(folder, names):
    for name in set(os.listdir(folder)) - set(names):
        os.remove(os.path.join(folder, name))


def check_memory(folder, words, under):
    """Whichever allocation is refused, of the first hundred each and of some later ones, the call is done as ever, or
    tells want of memory and has printed and put nothing."""
    told, number, wrong, before = os.path.join(folder, "told"), 1, [], files_of(folder)
    whole = run(words, folder)
    after = files_of(folder)
    while True:
        keep_only(folder, before)
        ended = run(words, folder, env=under(number, told))
        if not os.path.exists(told):
            break
        os.remove(told)
        got = (ended.returncode, ended.stdout, ended.stderr)
        is_done = got == (0, whole.stdout, b"") and set(files_of(folder)) == set(after)
        is_refused = got == (11, b"", b"tm: memory\n") and files_of(folder) == before
        if not is_done and not is_refused:
            wrong.append(f"allocation {number}: {got}"[:200])
        number = number + 1 if number < 100 else int(number * STEP)
    keep_only(folder, before)
    equal(f"{words[0]} with memory: status", whole.returncode, 0)
    expect(f"{' '.join(words)}: without memory", wrong)


def main():
    compiler = shutil.which("gcc") or shutil.which("cc")
    if not compiler:
        print("faults: skipped, there is no C compiler")
        return
    with tempfile.TemporaryDirectory() as built, tempfile.TemporaryDirectory() as folder:
        library = os.path.join(built, "faults.so")
        source = os.path.join(top, "tests", "faults.c")
        subprocess.run([compiler, "-shared", "-fPIC", "-o", library, source, "-ldl"], check=True)

        def under(fault):
            return {**os.environ, "LD_PRELOAD": library, "FAULT": fault}

        def short_of(number, told):
            return {**os.environ, "LD_PRELOAD": library, "REFUSED": str(number), "TOLD": told}

        check_puts(folder, under)
        check_texts(under)
        with tempfile.TemporaryDirectory() as files:
            for words in memory_calls(files):
                check_memory(files, words, short_of)
