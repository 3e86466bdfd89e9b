#!/usr/bin/env python3
"""The program panel through its script: what it prints for texts at its limits, and its exit statuses."""
import os
import random
import subprocess
import sys
import tempfile
import time
from pathlib import Path

ROOT = Path(__file__).resolve().parent.parent
PANEL = ROOT / "panel"
found = []
tried = 0


def expect(what, ran, status, output=None, message=None):
    """The run ended with the status, printed the output, and said so on standard error."""
    global tried
    tried += 1
    if ran.returncode != status:
        found.append(f"{what}: status {ran.returncode} and not {status}: {ran.stderr!r}")
    if output is not None and ran.stdout != output:
        found.append(f"{what}: printed {ran.stdout[:60]!r} and not {output[:60]!r}")
    if message is not None and message not in ran.stderr:
        found.append(f"{what}: said {ran.stderr!r} and not {message!r}")
    if message is None and ran.stderr:
        found.append(f"{what}: said {ran.stderr!r}")


def run(*words, panel=PANEL, **more):
    return subprocess.run([panel, *words], capture_output=True, timeout=3600, **more)


def piped(text):
    return run(input=text)


def smoothed(rows, columns, a, b, levels):
    """What is printed for a rectangle, by document 01: the mean over the cells of the window that are in the picture, a half going up."""
    lines = []
    for i in range(rows):
        means = []
        for j in range(columns):
            cells = [levels[m * columns + n] for m in range(max(0, i - a), min(rows, i + a + 1)) for n in range(max(0, j - b), min(columns, j + b + 1))]
            means.append((2 * sum(cells) + len(cells)) // (2 * len(cells)))
        lines.append(" ".join(map(str, means)) + "\n")
    return "".join(lines).encode()


def drawing(rows, columns, a, b, levels):
    return " ".join(map(str, [rows, columns, 1, a, b, *levels])).encode()


def texts():
    expect("document 01's example", piped(b"2 3 1 0 1 1 2 6 -1 -2 -6"), 0, b"2 3 4\n-1 -3 -4\n")
    for length, status, output in ((65535, 0, b"5\n"), (65536, 0, b"5\n"), (65537, 3, b"refused 10\n"), (200000, 3, b"refused 10\n")):
        expect(f"a text of {length} bytes", piped(b"1 1 1 0 0 5".ljust(length)), status, output)
    random.seed(1)
    levels = [random.randint(-32768, 32767) for _ in range(4096)]
    expect("4,096 cells", piped(drawing(64, 64, 2, 3, levels)), 0, smoothed(64, 64, 2, 3, levels))
    expect("4,097 cells", piped(drawing(17, 241, 0, 0, [0] * 4097)), 3, b"refused 1\n")
    lowest = smoothed(4, 1024, 0, 0, [-32768] * 4096)
    expect("the longest output", piped(drawing(4, 1024, 0, 0, [-32768] * 4096)), 0, lowest)
    if len(lowest) != 28672:
        found.append("the longest output has not 28,672 bytes")
    expect("an empty input", piped(b""), 3, b"refused 10\n")
    expect("a window beyond limits", piped(b"1 1 2 128 0 5"), 3, b"refused 3\n")
    pieces = subprocess.Popen([PANEL], stdin=subprocess.PIPE, stdout=subprocess.PIPE, stderr=subprocess.PIPE)
    for piece in (b"2 3 1 0 1 1", b" 2 6 -", b"1 -2", b" -6"):
        pieces.stdin.write(piece)
        pieces.stdin.flush()
        time.sleep(0.1)
    out, err = pieces.communicate()
    expect("an input in pieces", subprocess.CompletedProcess([], pieces.returncode, out, err), 0, b"2 3 4\n-1 -3 -4\n")


def uses():
    hill = (ROOT / "samples/hill.txt").read_bytes()
    printed = piped(hill).stdout
    expect("a file", run(ROOT / "samples/hill.txt"), 0, printed)
    expect("--help", run("--help"), 0)
    expect("an unknown option", run("--quiet"), 2, b"", b"no option --quiet")
    expect("two files", run("a", "b"), 2, b"", b"usage")
    expect("a folder", run(ROOT / "samples"), 2, b"", b"is a folder")
    expect("a file that is not there", run("none.txt"), 2, b"", b"there is no file none.txt")
    expect("standard input closed", run(preexec_fn=lambda: os.close(0)), 2, b"", b"standard input is closed")
    with tempfile.TemporaryDirectory(prefix="a path with blanks ") as folder:
        copy = Path(folder) / "a hill.txt"
        copy.write_bytes(hill)
        link = Path(folder) / "a link"
        link.symlink_to(PANEL)
        expect("a path with blanks", run(copy), 0, printed)
        expect("a link to the script, and a path from another folder", run("a hill.txt", panel=link, cwd=folder), 0, printed)
        if os.geteuid() != 0:
            copy.chmod(0)
            expect("a file that cannot be read", run(copy), 2, b"", b"cannot be read")
    with open("/dev/full", "wb") as full:
        ran = subprocess.run([PANEL, ROOT / "samples/hill.txt"], stdout=full, stderr=subprocess.PIPE, timeout=3600)
        expect("an output that cannot be written", subprocess.CompletedProcess([], ran.returncode, b"", ran.stderr), 4, b"", b"could not be written")
    reader, writer = os.pipe()
    os.close(reader)
    ran = subprocess.run([PANEL, ROOT / "samples/hill.txt"], stdout=writer, stderr=subprocess.PIPE, timeout=3600)
    os.close(writer)
    expect("a reader that is gone", subprocess.CompletedProcess([], ran.returncode, b"", ran.stderr), 4, b"", b"could not be written")


def main():
    first = subprocess.run([PANEL, ROOT / "samples/hill.txt"], stdout=subprocess.DEVNULL, stderr=subprocess.PIPE)
    if first.returncode != 0:
        print(first.stderr.decode(), file=sys.stderr)
        return 1
    texts()
    uses()
    for line in found:
        print(f"panel.py: {line}", file=sys.stderr)
    if found:
        return 1
    print(f"{tried} runs of panel, as they must be")
    return 0


if __name__ == "__main__":
    sys.exit(main())
