"""The pages that show the program at work, held to it: every command that stands behind `$ ` in an indented block of
a page is run, in the page's order and in one folder, and prints exactly the lines below it, or, where none are there,
those that the next table tells line by line. And what the pages list: the commands, statuses and messages."""
import glob
import os
import re
import shutil
import subprocess
import tempfile

from shared import equal, expect, program, read, run, top

PAGES = ("README.md", "examples/README.md", "examples/*/README.md", "docs/recording.md", "docs/tasks.md")
BLOCK = "    "
SOURCES = {
    "lost/late.tmi": ("control_late", "sampler"),
    "lost/early.tmi": ("control_early", "sampler"),
    "recording/poll.tmi": ("poll",),
    "recording/mark.tmi": ("mark",),
}


def lines_of(path):
    return read(path).decode("utf-8").split("\n")


def sessions(lines):
    """The commands of a page, each with the lines that it prints. A command goes on behind `> `, and its lines end
    where the block does. Where the first column of a table is `Line`, the pieces of code in it are the lines that the
    command before it prints."""
    found, inside, told = [], False, False
    for line in lines:
        text = line[len(BLOCK) :]
        if line.startswith(BLOCK + "$ "):
            found.append((text[2:], []))
            inside = True
        elif inside and line.startswith(BLOCK + "> "):
            found[-1] = (f"{found[-1][0]}\n{text[2:]}", [])
        elif inside and line.startswith(BLOCK):
            found[-1][1].append(text)
        elif told and line.startswith("|"):
            found[-1][1].extend(re.findall(r"`([^`]+)`", line.split("|")[1]))
        else:
            inside, told = False, line.startswith("| Line |")
    return found


def check_sessions(page, folder):
    """The commands run where `tm` and the folders of the repository are; what a page puts into /tmp goes elsewhere."""
    for number, (command, wanted) in enumerate(sessions(lines_of(os.path.join(top, page))), 1):
        ended = subprocess.run(
            ["bash", "-c", command.replace("/tmp/", f"{folder}/tmp/")],
            cwd=folder,
            stdout=subprocess.PIPE,
            stderr=subprocess.STDOUT,
            timeout=300,
        )
        equal(f"{page}, command {number}", ended.stdout.decode().splitlines(), wanted)


def check_pages():
    for page in sorted(path for pattern in PAGES for path in glob.glob(pattern, root_dir=top)):
        with tempfile.TemporaryDirectory() as folder:
            os.mkdir(os.path.join(folder, "tmp"))
            os.symlink(program, os.path.join(folder, "tm"))
            for name in ("examples", "tests", "bench"):
                os.symlink(os.path.join(top, name), os.path.join(folder, name))
            check_sessions(page, folder)


def forms(text):
    """The forms of the commands in a text, each in one line, without what is said of them."""
    return re.findall(r"^    (tm .*?)(?:  .*)?$", text.replace("\\\n", ""), re.M)


def check_lists():
    """The README and `--help` have the same commands and statuses, and docs/messages.md each line of the README."""
    readme, told = "\n".join(lines_of(os.path.join(top, "README.md"))), run(["--help"]).stdout.decode()
    equal("commands of the README", forms(readme), forms(told))
    rows = re.findall(r"^\| (\d+) \|[^|]*\|(.*)\|$", readme, re.M)
    equal("statuses of the README", [status for status, _ in rows], re.findall(r"^    (\d+) ", told, re.M))
    pages = "\n".join(lines_of(os.path.join(top, "docs", "messages.md")))
    said = [line for _, column in rows for line in re.findall(r"`(tm: \w+)", column)]
    expect("messages", [f"no {line}" for line in said if f"`{line}" not in pages])


def check_clauses():
    """Each clause that docs/promises.md names as `CALL`: `CLAUSE` stands at a function of that name."""
    source = {}
    for path in glob.glob(os.path.join(top, "crates", "*", "src", "**", "*.rt"), recursive=True):
        text = read(path).decode()
        for name, body in re.findall(r"\bfn (\w+)\b(.*?)(?=\n *(?:pub |const |unsafe )*fn |\Z)", text, re.S):
            source.setdefault(name, []).append(body)
    missing, promises = [], "\n".join(lines_of(os.path.join(top, "docs", "promises.md")))
    for call, clauses in re.findall(r"`([\w:]+)`: ((?:`\w+`(?:, )?)+)", promises):
        bodies = source.get(call.split("::")[-1], [])
        for clause in re.findall(r"`(\w+)`", clauses):
            if not any(re.search(rf"\bensures {clause} ?{{", body) for body in bodies):
                missing.append(f"{call}: {clause}")
    expect("clauses of docs/promises.md", missing)


def check_sources():
    """The words of the tasks are those of their sources, where there is an assembler."""
    tools = [shutil.which(name) for name in ("clang", "llvm-objcopy")]
    if not all(tools):
        print("pages: the sources are not assembled, there is no clang or llvm-objcopy")
        return
    for image, tasks in SOURCES.items():
        path = os.path.join(top, "examples", image)
        for task, name in enumerate(tasks):
            words = [word for line in lines_of(path) if line.startswith(f"text {task} ") for word in line.split()[2:]]
            equal(f"{image}: {name}", words, assembled(tools, os.path.join(os.path.dirname(path), f"{name}.s")))


def assembled(tools, source):
    """The words of a source's text."""
    clang, objcopy = tools
    with tempfile.TemporaryDirectory() as folder:
        linked, text = os.path.join(folder, "task.o"), os.path.join(folder, "text")
        target = ["--target=riscv32", "-march=rv32i", "-mabi=ilp32", "-mno-relax", "-nostdlib"]
        subprocess.run([clang, *target, "-c", "-o", linked, source], check=True)
        subprocess.run([objcopy, "-O", "binary", "-j", ".text", linked, text], check=True)
        code = read(text)
    return [f"{int.from_bytes(code[place : place + 4], 'little'):08x}" for place in range(0, len(code), 4)]


def main():
    check_pages()
    check_lists()
    check_clauses()
    check_sources()
