"""`tm make`: the summaries of two made runs, and the words that are refused."""
import os

from shared import check, equal, examples, read, top

SUMMARIES = {
    "0": b"make 0\nslices 20000\nentries 59155\npoints 60\nleast 59096\nbytes 6409\n",
    "1": b"make 1\nslices 20000\nentries 59236\npoints 66\nleast 59171\nbytes 6989\n",
}


def check_image():
    """The image that the program carries is the one of examples/cell."""
    carried = read(os.path.join(top, "crates", "tm_make", "src", "cell.rt"))
    equal("the image of make", carried.split(b'"\\\n')[1].split(b'";')[0], read(os.path.join(examples, "cell", "cell.tmi")))


def main():
    check_image()
    for number, text in SUMMARIES.items():
        check(f"make {number}", ["make", number], 0, text, "")
    check("make twice the same", ["make", "00000000000000000001"], 0, SUMMARIES["1"], "")
    for words in ([], ["1", "2"], ["-1"], [""], ["4294967296"], ["1x"], ["0x1"], ["000000000000000000001"], ["1", "--from=1"]):
        check(f"make {' '.join(words)}", ["make", *words], 2, b"", "tm: words")
