"""`tm record`: the dump of each run whose text is known, its length, and the calls that are refused."""
import os
import struct
import tempfile

from dumps import wrong_in
from shared import check, equal, expect, make_files, read, recorded_runs, top, write


def check_record(what, folder, image, plan, text, shelf):
    """Records the run whose text this is, over the dump of the run before, and compares the dump with it."""
    dump = os.path.join(shelf, "run.dump")
    check(f"{what} recorded", ["record", image, plan, dump], 0, b"", "", folder)
    try:
        wrong = wrong_in(read(dump), read(os.path.join(folder, image)), text)
    except (OSError, struct.error) as fault:
        wrong = [str(fault)]
    expect(f"{what}: dump", wrong)


def check_length(what, folder, words, length):
    """The length of the dump that the words record in the folder as short.dump."""
    check(what, words, 0, b"", "", folder)
    equal(f"{what}: length", len(read(os.path.join(folder, "short.dump"))), length)


def check_lengths(folder):
    """The two lengths that docs/formats.md works out."""
    image = os.path.join(top, "crates", "tm", "data", "smallest.tmi")
    write(os.path.join(folder, "empty.tmplan"), b"tmplan 1\n")
    check_length("the smallest run", folder, ["record", image, image.replace(".tmi", ".tmplan"), "short.dump"], 508)
    check_length("no slice", folder, ["record", image, "empty.tmplan", "short.dump"], 269)


def check_record_refusals(folder):
    """Words, names and files that `record` refuses: no dump is left."""
    image, plan, dump = "good.tmi", "good.tmplan", "refused.dump"
    refused = [
        ("two names", [image, plan], 2, "tm: words"),
        ("a fourth name", [image, plan, dump, dump], 2, "tm: words"),
        ("an image with a dash", ["-i", plan, dump], 2, "tm: words"),
        ("a plan with a dash", [image, "-p", dump], 2, "tm: words"),
        ("a dump with a dash", [image, plan, "-d"], 2, "tm: words"),
        ("an empty dump's name", [image, plan, ""], 2, "tm: words"),
        ("a missing image", ["missing.tmi", plan, dump], 3, "tm: read fault"),
        ("a missing plan", [image, "missing.tmplan", dump], 3, "tm: read fault"),
        ("an image that is none", ["not.tmi", plan, dump], 4, "tm: image line 1 form"),
        ("a plan that is none", [image, "not.tmi", dump], 5, "tm: plan line 1 form"),
        ("an image past 8 MiB", ["long.tmi", plan, dump], 10, "tm: too long 1"),
        ("a dump in a missing folder", [image, plan, "missing/refused.dump"], 9, "tm: write fault"),
        ("a folder as the dump", [image, plan, "a_folder"], 9, "tm: write fault"),
    ]
    before = sorted(os.listdir(folder))
    for what, names, status, err in refused:
        check(f"record: {what}", ["record", *names], status, b"", err, folder)
        expect(f"record: {what}: files", [name for name in os.listdir(folder) if name not in before])


def main():
    with tempfile.TemporaryDirectory() as shelf:
        for name, folder, words, text in recorded_runs():
            check_record(name, folder, *words[1:], text, shelf)
    with tempfile.TemporaryDirectory() as folder:
        make_files(folder)
        check_record_refusals(folder)
        check_lengths(folder)
