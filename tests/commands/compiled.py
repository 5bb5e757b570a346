"""The tasks in C of examples/c: that they write what the same C writes natively, as they stand there and built anew; that
they are what their sources give, and that the pages read them right. Each is skipped where its compiler is missing."""
import os
import random
import re
import shutil
import subprocess
import tempfile

from shared import check, equal, examples, expect, read, run, top, write

FOLDER = os.path.join(examples, "c")
WAYS, TASKS = ("apart", "whole"), ("control", "entry")
MADE_BY = "clang version 14.0.6"
CAME, LEFT, DONE = 2, 4, 5000


def plan_of(slices):
    return "".join(["tmplan 1\n", *(f"slice {length} {mask} {port} 0 0 0\n" for length, mask, port in slices)]).encode()


def plans():
    """Plans in which each interrupt finds the tasks done, as a run without preemption is the same everywhere."""
    last = subprocess.run([os.path.join(FOLDER, "plan"), "100"], stdout=subprocess.PIPE, check=True).stdout
    yield "plan 100", last
    chance = random.Random(1)
    for number, greatest in enumerate((100, 20000, 2**32 - 1)):
        slices = [(DONE, chance.choice((CAME, LEFT)), chance.randrange(greatest + 1)) for _ in range(200)]
        yield f"random {number}", plan_of([(DONE, 0, 0), *slices])


def native(compiler, folder):
    """The program of each way, made of the tasks' sources for the machine at hand."""
    for way in WAYS:
        objects = []
        for task in TASKS:
            objects.append(os.path.join(folder, f"{task}.o"))
            words = [f"-Dmain={task}_main", "-c", "-o", objects[-1], os.path.join(FOLDER, f"{task}.c")]
            subprocess.run([compiler, *words], check=True)
        sources = [os.path.join(top, "tests", "native.c"), os.path.join(FOLDER, f"{way}.c")]
        linked = os.path.join(folder, f"native-{way}")
        subprocess.run([compiler, "-I", FOLDER, "-o", linked, *sources, *objects], check=True)
        yield way, linked


def load(folder, way, executables):
    """Puts the image of the way's executables under the folder's name `image`."""
    image = os.path.join(FOLDER, "belt.tmi")
    for number, task in enumerate(TASKS):
        words = ["load", image, str(number), os.path.join(executables, way, task), "image"]
        check(f"{way}: {task} loaded", words, 0, b"", "", folder)
        image = "image"


def outputs(text):
    return [line for line in text.decode().splitlines() if line.startswith("out ")]


def check_outputs(what, folder, programs, executables):
    """The executables write under each plan what the native programs do."""
    for way, program in programs:
        load(folder, way, executables)
        for name, plan in plans():
            write(os.path.join(folder, "plan"), plan)
            wanted = subprocess.run([program], input=plan, stdout=subprocess.PIPE, check=True).stdout
            text = run(["trace", "image", "plan"], folder).stdout
            equal(f"{what}, {way}, {name}", outputs(text), wanted.decode().splitlines())
            expect(f"{what}, {way}, {name}: outputs", [] if wanted else ["none"])


def has_clang():
    return all(shutil.which(tool) for tool in ("clang", "ld.lld"))


def is_same_clang():
    """Is this the clang that made the executables?"""
    return has_clang() and MADE_BY.encode() in subprocess.run(["clang", "--version"], stdout=subprocess.PIPE).stdout


def build(folder, **options):
    """Builds the executables into the folder, and gives what the script says."""
    words = [os.path.join(FOLDER, "build"), folder]
    ended = subprocess.run(words, stdout=subprocess.PIPE, env={**os.environ, **options}, check=True)
    return ended.stdout.decode().splitlines()


def block_behind(page, begin):
    """The lines of a page's indented block that begins so, up to the first empty one, as one command."""
    block = re.search(rf"^    {re.escape(begin)}.*?(?=\n\n)", read(os.path.join(top, page)).decode(), re.M | re.S)[0]
    return block.replace("\\\n", "")


def check_sampler(folder):
    """The command of docs/tasks.md builds the sampler that stands there, whose source the page shows; with `-g` in place of
    `-s` and with pages, the image is the same."""
    page, name = "docs/tasks.md", "examples/tasks/sampler"
    shown = "\n".join(f"    {line}".rstrip() for line in read(os.path.join(top, f"{name}.c")).decode().splitlines()[1:])
    expect("the sampler in docs/tasks.md", [] if shown in read(os.path.join(top, page)).decode() else ["another source"])
    command, built = block_behind(page, "clang --target=riscv32 -fuse-ld=lld"), os.path.join(folder, "sampler")
    images = []
    for part, other in ((" -s ", " -s "), (" -s ", " -g "), (" -Wl,-n ", " ")):
        subprocess.run(command.replace(part, other).replace(f"-o {name}", f"-o {built}"), shell=True, cwd=top, check=True)
        if part == other:
            equal(name, read(built), read(os.path.join(top, name)))
        words = ["load", os.path.join(examples, "lost", "early.tmi"), "1", built, "image"]
        check(f"the sampler with{other.rstrip()}", words, 0, b"", "", folder)
        images.append(read(os.path.join(folder, "image")))
    equal("the sampler's images", images[1:], images[:1] * 2)


def check_same(folder, told):
    """The executables that stand there are those that their compiler makes, and the page has what the script says."""
    lines = [line.strip() for line in read(os.path.join(FOLDER, "README.md")).decode().splitlines()]
    expect("build says", [line for line in told if line not in lines] or ([] if told else ["nothing"]))
    for name in (f"{way}/{task}" for way in WAYS for task in TASKS):
        equal(f"examples/c/{name}", read(os.path.join(folder, name)), read(os.path.join(FOLDER, name)))
    defaults = os.path.join(folder, "c", "defaults")
    shutil.copytree(FOLDER, os.path.join(folder, "c"))
    subprocess.run([os.path.join(defaults, "build")], check=True)
    for name in ("address", "compressed", "multiplied"):
        equal(f"defaults/{name}", read(os.path.join(defaults, name)), read(os.path.join(FOLDER, "defaults", name)))


def check_table(folder):
    """The instructions in the page's table stand at its addresses."""
    page = read(os.path.join(FOLDER, "README.md")).decode()
    rows = re.findall(r"^\| ([0-9a-f]+) \| (`.*`) \|", page, re.M)
    source = "".join(f".org 0x{at}\n" + "\n".join(re.findall("`([^`]+)`", row)) + "\n" for at, row in rows)
    write(os.path.join(folder, "table.s"), source.encode())
    words = ["clang", "--target=riscv32", "-march=rv32i", "-mno-relax", "-nostdlib", "-fuse-ld=lld", "-Wl,-n,-s,-T"]
    words += [os.path.join(FOLDER, "tm.ld"), "-Wl,-e0", "-o", "table", "table.s"]
    subprocess.run(words, cwd=folder, check=True)
    texts = []
    for executable in (os.path.join(folder, "table"), os.path.join(FOLDER, "apart", "control")):
        check("the page's table", ["load", os.path.join(FOLDER, "belt.tmi"), "0", executable, "image"], 0, b"", "", folder)
        image = read(os.path.join(folder, "image")).decode()
        texts.append(re.search(r"^text 0 (.*)$", image, re.M)[1].split(" "))
    first = int(rows[0][0], 16) // 4
    equal("the page's table", texts[0][first:], texts[1][first : len(texts[0])])


def main():
    host, riscv = shutil.which("cc") or shutil.which("gcc") or shutil.which("clang"), "riscv64-unknown-elf-gcc"
    if not host:
        print("compiled: skipped, there is no C compiler")
        return
    with tempfile.TemporaryDirectory() as folder:
        programs = list(native(host, folder))
        check_outputs("as it stands", folder, programs, FOLDER)
        if has_clang():
            told = build(os.path.join(folder, "clang"))
            check_outputs("by clang", folder, programs, os.path.join(folder, "clang"))
        else:
            print("compiled: the tasks are not built anew, there is no clang or ld.lld")
        if is_same_clang():
            check_same(os.path.join(folder, "clang"), told)
            check_table(folder)
            check_sampler(folder)
        if shutil.which(riscv):
            build(os.path.join(folder, "gcc"), CC=riscv)
            check_outputs("by GCC", folder, programs, os.path.join(folder, "gcc"))
