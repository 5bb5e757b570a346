"""A minute of hostile files and words, by tests/hostile.py with a fixed seed."""
from hostile import storm
from shared import expect


def main():
    rounds, wrong = storm("1", 1)
    expect("hostile files", wrong[:5] or ([] if rounds else ["no round in a minute"]))
