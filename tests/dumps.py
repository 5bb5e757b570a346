"""Dumps, decoded by the table of docs/formats.md, and what the text of a run tells of its dump."""
import hashlib
import os
import struct
from types import SimpleNamespace

from shared import check, read, recorded_runs

NOBODY, DATA = 255, 0x10000000
KINDS = ("preempted", "waits", "ends", "fault", "shutdown", "idle")
STATES = ("suspended", "ready", "running", "waiting")
HOW = ("on", "fault", "shutdown")


def number(token):
    return int(token, 16) if token.startswith("0x") else int(token)


def shape_of(image):
    """The data words of each task, and the capacities, of an image that isn't refused."""
    words, caps = [], {"control": 256, "data": 256, "outputs": 256, "checks": 4}
    for line in image.decode("ascii").split("\n"):
        tokens = line.split()
        if tokens[:1] == ["task"]:
            words.append(number(tokens[6]))
        elif tokens[:1] == ["ring"]:
            caps[tokens[1]] = number(tokens[2])
    return words, caps


def decode(dump, words, caps):
    """The fields of a dump, in their order. A checkpoint is the pc and x1 to x31, the data number and the
    control number, and the data words; `end` is where the closing digest begins."""
    place = 0

    def take(form):
        nonlocal place
        values = struct.unpack_from("<" + form, dump, place)
        place += struct.calcsize("<" + form)
        return values

    def kept(cap, form):
        (total,) = take("Q")
        return SimpleNamespace(total=total, items=[take(form) for _ in range(min(total, cap))])

    fields = SimpleNamespace()
    fields.magic, fields.image, fields.tasks = take("5s32sB")
    fields.control = kept(caps["control"], "BBQIIBQII")
    fields.outputs = kept(caps["outputs"], "BBI")
    fields.logs, fields.checks = [], []
    for count in words:
        fields.logs.append(kept(caps["data"], "BI4I"))
        fields.checks.append(kept(caps["checks"], f"32IQQ{count}I"))
    fields.running, fields.ended = take("BB")
    fields.stands = [take("QIIB") for _ in words]
    fields.end = place
    (fields.closing,) = take("32s")
    return fields


def lists_of(fields):
    """The lists of a dump that a run only adds to, in a fixed order."""
    return [fields.control, fields.outputs, *fields.logs, *fields.checks]


def is_beginning(part, whole):
    """The lists of the first dump have no more items than those of the second, and the same under each number that both
    have kept."""
    for mine, others in zip(lists_of(part), lists_of(whole)):
        first = max(mine.total - len(mine.items), others.total - len(others.items))
        both = [kept.items[first - kept.total + len(kept.items) :] for kept in (mine, others)]
        if mine.total > others.total or both[0] != both[1][: len(both[0])]:
            return False
    return True


def marker(token):
    epoch, count, pc = token.split(".")
    return int(epoch), int(count), int(pc, 16)


def task(token):
    return NOBODY if token == "-" else int(token)


def blocks_of(text):
    """The lines of a text as tokens, in blocks that begin with a `start`, `task`, `switch` or `end` line."""
    blocks = []
    for line in text.decode("ascii").splitlines():
        tokens = line.split(" ")
        if tokens[0] in ("start", "task", "switch", "end"):
            blocks.append([])
        blocks[-1].append(tokens)
    return blocks


def follow(stand, lines):
    """Brings what was printed of a task up to these lines, and gives the outputs in them."""
    outputs = []
    for what, *values in lines:
        if what == "at":
            stand.at = marker(values[0])
        elif what == "regs":
            named = dict(value.split("=") for value in values)
            stand.regs = [int(named.get(f"x{x}", "0"), 16) for x in range(1, 32)]
        elif what == "data":
            stand.data[(int(values[0], 16) - DATA) // 4] = int(values[1], 16)
        elif what == "out":
            outputs.append((int(values[0]), int(values[1], 16)))
    return outputs


def checkpoint(stand, control_number):
    """A checkpoint of a task as it stands, without the data number."""
    return (stand.at[2], *stand.regs), control_number, tuple(stand.data)


def told_by(text, words):
    """What the text of a run tells of the lists that the run leaves, in the form of `decode`. Every output is
    printed. Of the checkpoints those are told, by their epoch, that are made at boot or where a task ends or
    waits. Who runs next stands as it was printed last."""
    told = SimpleNamespace(control=[], outputs=[], checks=[{} for _ in words], stands=[])
    tasks = {who: SimpleNamespace(data=[0] * count) for who, count in enumerate(words)}
    tasks[NOBODY] = SimpleNamespace(at=(0, 0, 0))
    for head, *lines in blocks_of(text):
        if head[0] == "switch":
            who, kind, to = task(head[2]), head[3], task(head[4])
            told.outputs += [(who, *output) for output in follow(tasks[who], lines)]
            if kind in ("ends", "waits"):
                told.checks[who][tasks[who].at[0]] = checkpoint(tasks[who], len(told.control))
            told.control.append((who, KINDS.index(kind), *tasks[who].at, to, *tasks[to].at))
        elif head[0] == "task":
            who = task(head[1])
            told.outputs += [(who, *output) for output in follow(tasks[who], [["at", head[-1]], *lines])]
            if len(head) == 3:
                told.checks[who][0] = checkpoint(tasks[who], 0)
            else:
                told.stands.append((*tasks[who].at, STATES.index(head[2])))
        elif head[0] == "end":
            told.running, told.ended = task(head[1]), HOW.index(head[2])
    return told


def wrong_checkpoints(fields, told):
    """The kept checkpoints that aren't as the text tells them, or whose last data entry can't begin an epoch."""
    for who, (checks, log) in enumerate(zip(fields.checks, fields.logs)):
        entries = dict(enumerate(log.items, log.total - len(log.items) + 1))
        for epoch, item in enumerate(checks.items, checks.total - len(checks.items)):
            if epoch not in told.checks[who]:
                continue
            body, data_number, control_number, data = item[:32], item[32], item[33], item[34:]
            if (body, control_number, data) != told.checks[who][epoch]:
                yield f"checkpoint {epoch} of task {who}"
            if (data_number == 0) != (epoch == 0):
                yield f"data number of checkpoint {epoch} of task {who}"
            if data_number in entries and entries[data_number][:2] not in ((2, 0), (3, 0), (11, 0)):
                yield f"data entry {data_number} of task {who}"


def wrong_ranges(fields):
    """What is out of range in the lists that no text tells whole: data entries and checkpoints."""
    for who, (checks, log) in enumerate(zip(fields.checks, fields.logs)):
        if any(entry[1] > 8 for entry in log.items):
            yield f"a status of task {who}"
        if any(item[0] % 4 or item[32] > log.total or item[33] > fields.control.total for item in checks.items):
            yield f"a checkpoint of task {who}"


def wrong_in(dump, image, text):
    """What of a dump isn't as the image and the text of the same run say."""
    words, caps = shape_of(image)
    fields, told = decode(dump, words, caps), told_by(text, words)
    facts = {
        "magic": (fields.magic, b"\x54\x4d\x44\x50\x01"),
        "image digest": (fields.image, hashlib.sha256(image).digest()),
        "tasks": (fields.tasks, len(words)),
        "control total": (fields.control.total, len(told.control)),
        "control entries": (fields.control.items, told.control[-caps["control"] :]),
        "output total": (fields.outputs.total, len(told.outputs)),
        "outputs": (fields.outputs.items, told.outputs[-caps["outputs"] :]),
        "running": (fields.running, told.running),
        "ended": (fields.ended, told.ended),
        "markers and states": (fields.stands, told.stands),
        "checkpoint totals": ([checks.total for checks in fields.checks], [stand[0] + 1 for stand in told.stands]),
        "closing digest": (fields.closing, hashlib.sha256(dump[: fields.end]).digest()),
        "length": (len(dump), fields.end + 32),
    }
    wrong = [f"{what} {got!r}, wanted {wanted!r}"[:400] for what, (got, wanted) in facts.items() if got != wanted]
    return wrong + list(wrong_checkpoints(fields, told)) + list(wrong_ranges(fields))


def recorded(shelf):
    """Records each run whose text is known, and gives its name, the folder of its image, the image, the path of the
    dump, the decoded dump and the text."""
    dump = os.path.join(shelf, "recorded.dump")
    for name, folder, words, text in recorded_runs():
        image, plan = words[1:]
        check(f"{name} recorded", ["record", image, plan, dump], 0, b"", "", folder)
        yield name, folder, image, dump, decode(read(dump), *shape_of(read(os.path.join(folder, image)))), text
