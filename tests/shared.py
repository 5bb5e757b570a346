"""What the checks of all commands share: the program, its cases, and the count of what passed."""
import os
import subprocess

top = os.path.dirname(os.path.dirname(os.path.abspath(__file__)))
program = os.path.join(top, "crates", "tm", "out", "tm")
examples = os.path.join(top, "examples")
cases = os.path.join(top, "tests", "cases")
traces = os.path.join(top, "tests", "traces")
passed = failed = 0


def read(path):
    with open(path, "rb") as file:
        return file.read()


def write(path, content):
    with open(path, "wb") as file:
        file.write(content)


def expect(what, wrong):
    """Counts a check that found these things wrong, or nothing."""
    global passed, failed
    if wrong:
        failed += 1
        print(f"{what}: {'; '.join(wrong)}")
    else:
        passed += 1


def equal(what, got, wanted):
    """Counts a check that two values are equal."""
    expect(what, [] if got == wanted else [f"{got!r}, wanted {wanted!r}"[:400]])


def run(words, folder=cases, **options):
    """Runs the program with the words in the folder."""
    return subprocess.run([program, *words], cwd=folder, capture_output=True, timeout=120, **options)


def check(what, words, status, out, err, folder=cases, **options):
    """Runs the program with the words in the folder; `out` is bytes, `err` the line or nothing."""
    ended = run(words, folder, **options)
    got = (ended.returncode, ended.stdout, ended.stderr)
    wanted = (status, out, err.encode() + b"\n" if err else b"")
    told = f"got {got[0]}, {len(got[1])} bytes, {got[2]!r}; wanted {status}, {len(out)} bytes, {wanted[2]!r}"
    expect(what, [] if got == wanted else [told])


def recorded_runs():
    """Each call of `trace` that prints a run: a name, its folder, its words and its text. They stand in tests/cases:
    NAME.tmi and NAME.tmplan with the text, NAME.out; and in tests/traces."""
    for name in sorted(os.listdir(cases)):
        if name.endswith(".tmi"):
            base = name[: -len(".tmi")]
            yield base, cases, ["trace", name, base + ".tmplan"], read(os.path.join(cases, base + ".out"))
    for name, folder, words, status, text, _ in steps():
        if words[0] == "trace" and status == 0:
            yield name, folder, words, text


def steps():
    """Each call in the folders of tests/traces, whose steps.tsv has a line for each: the words, the exit status, the
    file with standard output or -, the line on standard error or -."""
    for name in sorted(os.listdir(traces)):
        folder = os.path.join(traces, name)
        with open(os.path.join(folder, "steps.tsv"), encoding="utf-8") as lines:
            for place, line in enumerate(lines, 1):
                words, status, out, err = line.rstrip("\n").split("\t")
                text = b"" if out == "-" else read(os.path.join(folder, out))
                yield f"{name} {place}", folder, words.split(" "), int(status), text, "" if err == "-" else err


def make_files(folder):
    """The files that the refusals of all commands need, in the folder: the example as good.tmi and good.tmplan, a file
    that is no text, an image and a plan of the greatest length and of a byte more, and a folder."""
    for name in ("handover.tmi", "handover.tmplan"):
        write(os.path.join(folder, name.replace("handover", "good")), read(os.path.join(examples, name)))
    write(os.path.join(folder, "not.tmi"), b"\x7fELF\x00\xff\n")
    write(os.path.join(folder, "full.tmi"), b"\n" * (8 << 20))
    write(os.path.join(folder, "long.tmi"), b"\n" * ((8 << 20) + 1))
    write(os.path.join(folder, "full.tmplan"), b"#" * (128 << 20))
    write(os.path.join(folder, "long.tmplan"), b"#" * ((128 << 20) + 1))
    os.mkdir(os.path.join(folder, "a_folder"))
