#!/usr/bin/env python3
"""How the time of the order rule grows with its input: run it at the top of the repository.

It makes units of the x86 dialect that pass the check: reads of a scalar table in 50,000 and 200,000 statements `x+=t;`, and one full expression, which is
one part, that steps 12,500 and 50,000 variables. `simdmove run` reads and checks each, and runs it for no turn. For each it prints the seconds
(the least of five runs), those of `gcc -fsyntax-only` on the same file with their ratio, and how the tool's time grows (4 is linear).
"""
import os, subprocess, tempfile

from migrate import seconds

DIGITS = "abcdefghijklmnopqrstuvwxyz0123456789"
PARAMETERS = 127


def reads(n):
    return "static const int t = 3;\nint f(int x) {" + "x+=t;" * n + "return x; }\n"


def named(k):
    digits = ""
    while k:
        k, rest = divmod(k, len(DIGITS))
        digits += DIGITS[rest]
    return "V" + digits


def steps(n):
    """Calls in calls: each has 127 arguments, so the nesting stays flat."""
    names = [named(k) for k in range(1, n + 1)]
    parts = [name + "++" for name in names]
    while len(parts) > 1:
        groups = [parts[i:i + PARAMETERS] for i in range(0, len(parts), PARAMETERS)]
        parts = ["g(" + ",".join(group + ["0"] * (PARAMETERS - len(group))) + ")" for group in groups]
    g = "static int g(" + ",".join("int p%d" % i for i in range(PARAMETERS)) + ") { return p0; }\n"
    return g + "int f(int x) { int " + ",".join(names) + "; return " + parts[0] + "; }\n"


def main():
    top = os.path.dirname(os.path.dirname(os.path.abspath(__file__)))
    script = os.path.join(top, "simdmove")
    subprocess.run([script, "migrate"], stdin=subprocess.DEVNULL, stdout=subprocess.DEVNULL, check=True)
    tool = [os.path.join(top, "crates", "simdmove", "out", "simdmove"), "run", "x86", "f", "0", "int:1"]
    with tempfile.TemporaryDirectory() as folder:
        path = os.path.join(folder, "unit.c")
        peer = ["gcc", "-fsyntax-only", path]
        for name, make, sizes in (("reads of a table", reads, (50000, 200000)), ("stepped names", steps, (12500, 50000))):
            took = []
            for n in sizes:
                with open(path, "w") as file:
                    file.write(make(n))
                # done, undefined, or out of turns: a unit that is refused ends otherwise
                own, other = seconds(tool, path, (0, 6, 7)), seconds(peer, path, (0,))
                took.append(own)
                print(f"{name}, {n}: simdmove {own:.3f} s, gcc -fsyntax-only {other:.3f} s, ratio {own / other:.2f}")
            print(f"{name}: growth of simdmove from a quarter {took[1] / took[0]:.1f}")


if __name__ == "__main__":
    main()
