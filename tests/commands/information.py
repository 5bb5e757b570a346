"""`tm --help` and `tm --version`."""
from shared import check, run

FORMS = (b"tm trace IMAGE PLAN ", b"tm record IMAGE PLAN DUMP ", b"tm watch IMAGE PLANT PREFIX ")
FORMS += (b"tm load IMAGE T ELF NEW ", b"tm make N ")


def main():
    text = run(["--help"]).stdout
    check("--help", ["--help"], 0, text if all(form in text for form in FORMS) else b"?", "")
    check("--version", ["--version"], 0, b"tm 0.1.0\n", "")
