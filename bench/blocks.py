#!/usr/bin/env python3
"""How much memory `simdmove run` keeps for blocks that have ended: run it at the top of the repository.

It runs a loop of 12,500 and 50,000 turns whose body declares an array of 65,536 bytes. For each it prints the seconds, the greatest memory
in megabytes, and how the time grows (4 is linear).
"""
import os, subprocess, sys, tempfile, time

TURNS = (12500, 50000)
SOURCE = "int f(int n) { int s = 0; for (int i = 0; i < n; i++) { unsigned char a[65536]; a[i] = 1; s += a[i]; } return s; }\n"


def run(tool, turns):
    with tempfile.TemporaryFile() as source:
        source.write(SOURCE.encode())
        source.seek(0)
        start = time.monotonic()
        child = subprocess.Popen([tool, "run", "x86", "f", str(TURNS[1]), "int:%d" % turns], stdin=source, stdout=subprocess.DEVNULL)
        _, status, usage = os.wait4(child.pid, 0)
        if status != 0:
            sys.exit("the run ended with the status %d" % os.waitstatus_to_exitcode(status))
        return time.monotonic() - start, usage.ru_maxrss / 1024


def main():
    top = os.path.dirname(os.path.dirname(os.path.abspath(__file__)))
    subprocess.run([os.path.join(top, "simdmove"), "migrate"], stdin=subprocess.DEVNULL, stdout=subprocess.DEVNULL, check=True)
    tool = os.path.join(top, "crates", "simdmove", "out", "simdmove")
    before = None
    for turns in TURNS:
        seconds, megabytes = run(tool, turns)
        growth = "" if before is None else f", growth {seconds / before:.1f}"
        print(f"{turns} turns with an array of 65,536 bytes: {seconds:.2f} s, at most {megabytes:.0f} MB{growth}")
        before = seconds


if __name__ == "__main__":
    main()
