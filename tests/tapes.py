"""Tapes that are read back from dumps: of images whose tasks tell by their markers and control entries when each line
came. What was taken beside threads is known then, though nothing but dumps was put."""
from dumps import KINDS, STATES, decode, shape_of

READ_INPUT = 18
EPOCH = 1 << 20
NO_PORTS = (0, 0, 0, 0)


def tape_text(slices, length):
    """The plan of slices of one length, each its mask and its ports."""
    lines = [f"slice {length} 0x{mask:04x} " + " ".join(f"0x{word:08x}" for word in ports) for mask, ports in slices]
    return "\n".join(["tmplan 1", *lines, ""])


class Clock:
    """An image with a task 0 that runs for ever, of `loop` instructions from one backward transfer to the next, and
    with tasks above it: line T activates task T, which does `lengths[T - 1]` instructions and terminates, or none and
    faults. Each activation of task 1 reads the first `ports` ports. A slice is long enough for all tasks one after
    another, and the rings are so large that no control entry and no answer is dropped."""

    def __init__(self, text, loop, lengths, ports=0):
        self.text, self.loop, self.lengths, self.ports = text, loop, lengths, ports
        self.faults = 0 in lengths

    def instructions(self, epoch, count, pc):
        """How many instructions task 0 has done at a marker."""
        return pc // 4 + self.loop * (epoch * EPOCH + count)

    def tape_of(self, dump, length):
        """The slices of a run of slices of this length, as its dump tells them: a word that no task read is 0, and none
        are told behind a fault. A task that a fault left ready was activated in the last slice."""
        fields = decode(dump, *shape_of(self.text.encode()))
        if fields.control.total != len(fields.control.items):
            raise ValueError("a control entry was dropped")
        words = iter([entry[2] for entry in fields.logs[1].items if entry[0] == READ_INPUT])
        found, others, place = {}, 0, 0
        for left, kind, *marker in fields.control.items:
            if KINDS[kind] == "preempted":
                place = slices_in(others + self.instructions(*marker[:3]), length)
            elif KINDS[kind] in ("ends", "fault"):
                mask, ports = found.get(place, (0, NO_PORTS))
                if left == 1:
                    ports = tuple(next(words) for _ in range(self.ports)) + NO_PORTS[self.ports :]
                found[place] = mask | 1 << left, ports
                others += self.lengths[left - 1]
        if fields.ended:
            mask, ports = found[place]
            ready = [1 << who for who, stand in enumerate(fields.stands) if who and STATES[stand[3]] == "ready"]
            found[place] = mask | sum(ready), ports
            return [found.get(number, (0, NO_PORTS)) for number in range(place + 1)]
        end = slices_in(others + self.instructions(*fields.stands[0][:3]), length)
        return [found.get(number, (0, NO_PORTS)) for number in range(end)]


def slices_in(instructions, length):
    """How many slices have so many instructions."""
    if instructions % length:
        raise ValueError(f"{instructions} instructions are no slices of {length}")
    return instructions // length
