"""`tm points`: the points of each recorded run, and the calls that are refused."""
import os
import tempfile

from changed_dumps import refused_dumps
from dumps import recorded
from finder import accepted
from shared import check, make_files, read, top, write


def check_runs(shelf):
    for name, folder, image, dump, fields, _ in recorded(shelf):
        lines = "".join(f"{point}\n" for point in accepted(fields))
        check(f"{name} points", ["points", image, dump], 0, lines.encode(), "", folder)


def check_refusals(folder):
    """Words, files and dumps that `points` refuses, in their order."""
    image, dump = "good.tmi", "good.dump"
    check("good.dump recorded", ["record", image, "good.tmplan", dump], 0, b"", "", folder)
    write(os.path.join(folder, "long.dump"), b"\0" * ((128 << 20) + 1))
    refused = [
        ("one name", [image], 2, "tm: words"),
        ("a third name", [image, dump, dump], 2, "tm: words"),
        ("an option", [image, dump, "--from", "0"], 2, "tm: words"),
        ("a name with a dash", [image, "-d"], 2, "tm: words"),
        ("an empty name", [image, ""], 2, "tm: words"),
        ("a missing image", ["missing.tmi", dump], 3, "tm: read fault"),
        ("a missing dump", [image, "missing.dump"], 3, "tm: read fault"),
        ("a folder as the dump", [image, "a_folder"], 3, "tm: read fault"),
        ("an image that is none, before a missing dump", ["not.tmi", "missing.dump"], 4, "tm: image line 1 form"),
        ("an image past 8 MiB", ["long.tmi", dump], 10, "tm: too long 1"),
        ("a dump past 128 MiB", [image, "long.dump"], 10, "tm: too long 2"),
        ("a plan as the dump", [image, "good.tmplan"], 6, "tm: dump magic"),
        ("the dump of another image", [os.path.join(top, "bench", "mix.tmi"), dump], 6, "tm: dump other image"),
    ]
    for what, names, status, err in refused:
        check(f"points: {what}", ["points", *names], status, b"", err, folder)


def check_changed(folder):
    image = os.path.join(top, "crates", "tm", "data", "smallest.tmi")
    check("smallest.dump recorded", ["record", image, image.replace(".tmi", ".tmplan"), "smallest.dump"], 0, b"", "", folder)
    dump = read(os.path.join(folder, "smallest.dump"))
    check("points of the smallest run", ["points", image, "smallest.dump"], 0, b"0\n1\n2\n", "", folder)
    for what, bytes_of_it, refusal in refused_dumps(dump):
        write(os.path.join(folder, "changed.dump"), bytes_of_it)
        check(f"points: {what}", ["points", image, "changed.dump"], 6, b"", f"tm: dump {refusal}", folder)


def main():
    with tempfile.TemporaryDirectory() as shelf:
        check_runs(shelf)
    with tempfile.TemporaryDirectory() as folder:
        make_files(folder)
        check_refusals(folder)
        check_changed(folder)
