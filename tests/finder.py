"""From which points a run can be replayed with what its dump keeps, and the text from such a point; both are worked
out from the decoded dump and from the whole text, as docs/formats.md says."""
from types import SimpleNamespace

from dumps import NOBODY, blocks_of, follow, task


def first_kept(ring):
    """How many items of a ring are gone."""
    return ring.total - len(ring.items)


def epoch_at(fields, who, point):
    """The epoch of a task at a point from which all control entries are kept: a task's marker changes only while it
    runs, so it is that of the last entry up to the point that names the task, else of the first one behind, else
    the last one that there is."""
    if point == 0:
        return 0
    gone = first_kept(fields.control)
    named = []
    for number, (left, _, *rest) in enumerate(fields.control.items, gone + 1):
        (from_epoch, _, _), to, (to_epoch, _, _) = rest[:3], rest[3], rest[4:]
        if who in (left, to):
            named.append((number, to_epoch if to == who else from_epoch))
    before = [epoch for number, epoch in named if number <= point]
    behind = [epoch for number, epoch in named if number > point]
    return before[-1] if before else behind[0] if behind else fields.stands[who][0]


def lost(fields, point):
    """What is lost that a replay from the point needs, as the status line has it; None where all is kept."""
    if point > fields.control.total:
        return f"unknown {fields.control.total}"
    gone = first_kept(fields.control)
    if gone and point <= gone:
        return f"control {gone + 1}"
    for who, (checks, log) in enumerate(zip(fields.checks, fields.logs)):
        epoch = epoch_at(fields, who, point)
        if epoch < first_kept(checks):
            return f"check {who} {epoch}"
        needed = checks.items[epoch - first_kept(checks)][32]
        if needed < first_kept(log):
            return f"data {who} {needed} {first_kept(log)}"
    return None


def accepted(fields):
    """The points from which the run can be replayed, rising."""
    return [point for point in range(first_kept(fields.control), fields.control.total + 1) if not lost(fields, point)]


def text_from(text, words, point):
    """The text from a point, of the whole text: how each task was printed last, and then the end of the text."""
    blocks = blocks_of(text)
    begins = 1 + len(words)
    stands = [SimpleNamespace(at=(0, 0, 0), regs=[0] * 31, data=[0] * count) for count in words]
    running = "-"
    for head, *lines in blocks[1 : begins + point]:
        who = task(head[1] if head[0] == "task" else head[2])
        if head[0] == "switch":
            running = head[4]
        if who != NOBODY:
            follow(stands[who], [["at", head[2]], *lines] if head[0] == "task" else lines)
    start = [f"start {point} {running}"]
    for who, stand in enumerate(stands):
        epoch, count, pc = stand.at
        regs = "".join(f" x{x}={value:08x}" for x, value in enumerate(stand.regs, 1) if value)
        start += [f"task {who} {epoch}.{count}.{pc:08x}", "regs" + regs]
        start += [f"data {0x10000000 + 4 * k:08x} {value:08x}" for k, value in enumerate(stand.data) if value]
    rest = [" ".join(line) for block in blocks[begins + point :] for line in block]
    return "".join(line + "\n" for line in start + rest).encode("ascii")
