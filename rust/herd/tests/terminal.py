"""How far long work is: shown by `herd` on a terminal, taken away at its end, and not written into a pipe or a file.

usage: terminal.py PROGRAM
"""

import os
import pty
import subprocess
import sys
import tempfile

HEAD = 4096
RADII = [str(250 * i) for i in range(32)]
CLEARED = "\r\x1b[K"


def on_terminal(words, folder):
    """Standard error on a terminal: what is written there and to standard output."""
    ours, theirs = pty.openpty()
    run = subprocess.Popen(words, cwd=folder, stdout=subprocess.PIPE, stderr=theirs)
    os.close(theirs)
    shown = b""
    while True:
        try:
            piece = os.read(ours, 65536)
        except OSError:  # the other end is closed
            break
        if not piece:
            break
        shown += piece
    os.close(ours)
    out = run.stdout.read().decode()
    assert run.wait() == 0, shown
    return shown.decode(), out


def in_pipe(words, folder):
    run = subprocess.run(words, cwd=folder, capture_output=True, text=True)
    assert run.returncode == 0, run.stderr
    return run.stderr, run.stdout


def held(program, words, folder, unit, all_of_it):
    """The same command with and without a terminal; what it changes is put back between the two."""
    image = os.path.join(folder, "yard.img")
    before = open(image, "rb").read()
    shown, out = on_terminal([program, *words], folder)
    open(image, "wb").write(before)
    silent, piped = in_pipe([program, *words], folder)
    assert out == piped and silent == "", (words[0], silent)
    assert shown.endswith(CLEARED), (words[0], shown[-80:])
    steps = [int(line.split("] ")[1].split(" of ")[0]) for line in shown[: -len(CLEARED)].split("\r") if line]
    assert steps == sorted(set(steps)) and steps[-1] <= all_of_it, (words[0], steps)
    assert len(steps) > 10 and f" of {all_of_it} {unit}" in shown, (words[0], shown[:80])
    print(f"herd {words[0]}: {len(steps)} steps on a terminal, none in a pipe")


def main():
    program = os.path.abspath(sys.argv[1])
    with tempfile.TemporaryDirectory() as folder:
        with open(os.path.join(folder, "yard.list"), "w") as file:
            file.write("tag;kg;hip;girth;gain\n")
            file.writelines(f"036{i:012};{i * 7 % 900},{i % 100:02};128,00;183,00;0,90\n" for i in range(HEAD))
        in_pipe([program, "new", "yard.img", "--order", "12", "--metric", "sum"], folder)
        held(program, ["read", "yard.img", "yard.list"], folder, "lines", HEAD)
        held(program, ["lots", "yard.img", *RADII], folder, "radii", len(RADII))


main()
