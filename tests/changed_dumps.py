"""Dumps that no run left: changed ones with a fresh closing digest, and what is answered to them."""
import hashlib

END = 32


def sealed(body):
    """The bytes with the digest that closes them."""
    return body + hashlib.sha256(body).digest()


def changed(dump, *changes):
    """The dump with other bytes at some places, sealed anew."""
    body = bytearray(dump[:-END])
    for place, byte in changes:
        body[place] = byte
    return sealed(bytes(body))


def widened(dump, place, count):
    """The dump with zero bytes put in at a place, sealed anew."""
    return sealed(dump[:place] + bytes(count) + dump[place:-END])


def refused_dumps(dump):
    """Dumps made of that of the smallest run, 508 bytes, and what they are refused for, by the table of the format."""
    return [
        ("no byte", b"", "magic"),
        ("36 bytes", dump[:36], "magic"),
        ("37 bytes", dump[:37], "digest"),
        ("507 bytes", dump[:507], "digest"),
        ("a byte more", dump + b"\0", "digest"),
        ("another magic number", changed(dump, (0, 0)), "magic"),
        ("another version", changed(dump, (4, 2)), "version 2"),
        ("another image", changed(dump, (5, dump[5] ^ 1)), "other image"),
        ("no image digest", sealed(dump[:36]), "field 5"),
        ("an end in the first entry", sealed(dump[:46]), "field 46"),
        ("two tasks", changed(dump, (37, 2)), "field 37"),
        ("a third entry", changed(dump, (38, 3)), "field 116"),
        ("a control total of 2^53", changed(dump, (44, 0x20)), "field 38"),
        ("an entry of nobody that is not idle", changed(dump, (47, 0)), "field 47"),
        ("a count of 1048576", changed(dump, (93, 0x10)), "field 91"),
        ("the task running in the end", changed(dump, (457, 0)), "field 457"),
        ("an end by a fault", changed(dump, (458, 1)), "field 458"),
        ("a byte behind the tail", widened(dump, 476, 1), "extra 476"),
    ]


def diverging_dumps(dump):
    """Dumps made of that of the smallest run that are well formed, and what of them no run does, from point 0 on."""
    return [
        ("another service", changed(dump, (132, 1)), "at 2 task 0 reached 0.0.00000004 wanted 1.0.00000000 other service"),
        ("a refused answer", changed(dump, (133, 1)), "at 2 task 0 reached 0.0.00000008 wanted 1.0.00000000 faulted"),
        ("an entry used before", changed(dump, (289, 1)), "at 2 task 0 reached 0.0.00000004 wanted 1.0.00000000 no entry"),
        ("a fault", changed(dump, (82, 3), (458, 1)), "at 2 task 0 reached 1.0.00000000 wanted 1.0.00000000 no fault"),
        (
            "a second entry",
            widened(changed(dump, (124, 2)), 153, 21),
            "at 3 task 0 reached 1.0.00000000 wanted 1.0.00000000 left",
        ),
    ]
