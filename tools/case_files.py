"""The files of a program that runs cases: `stdin` has each case as three bytes of length and its bytes, `stdout` the lines that answer them."""
import subprocess
import sys
from pathlib import Path


def write(crate, cases):
    """`cases`: pairs of bytes and of lines, the last one without its end."""
    folder = Path(__file__).resolve().parent.parent / "crates" / crate
    given, lines, count = b"", "", 0
    for case, answer in cases:
        given += len(case).to_bytes(3, "little") + case
        lines += answer + "\n"
        count += 1
    (folder / "stdin").write_bytes(given)
    (folder / "stdout").write_text(lines)
    print(count, "cases,", len(given), "bytes")


def oracle(usage):
    """The path of the oracle's `answer`, if one is given; the usage, where there is something else."""
    if sys.argv[2:] or sys.argv[1:] and not Path(sys.argv[1]).is_file():
        sys.exit(usage)
    return sys.argv[1] if sys.argv[1:] else None


def must_agree(answer, listing, number, place):
    """Ends the tool where the oracle's `answer` has another verdict."""
    verdict = f"number: {number}, place: {place},"
    told = subprocess.run([answer, listing.hex()], capture_output=True, text=True).stdout.split("\n")[0]
    if verdict not in told:
        sys.exit(f"{listing.hex()}: stated {verdict}, the oracle says {told}")
