#!/usr/bin/env python3
"""How time and memory of `simdmove run` grow with functions, objects and calls: run it at the top of the repository.

Each case is run at a quarter of its size and at its size. It prints the seconds of both (the least of three runs), how the time grows (4 is
linear; of `functions`, which makes the same calls in a unit with four times as many functions, 1 is best beside the time of reading the unit), and
the most memory that the larger run had.
"""
import os, subprocess, time


def functions(n):
    """One function of many, called again and again."""
    text = "".join(f"int g{i}(int x) {{ return x + 1; }}\n" for i in range(n - 1))
    return text + f"int f(int n) {{ int s = 0; while (s < n) s = g{n - 2}(s); return s; }}\n", ["int:100000"]


def chain_of_functions(n):
    """Functions that call one another, the next each."""
    text = "int g0(int x) { return x; }\n" + "".join(f"int g{i}(int x) {{ return g{i - 1}(x) + 1; }}\n" for i in range(1, n - 1))
    return text + f"int f(int n) {{ return g{n - 2}(n); }}\n", ["int:1"]


def turns_with_a_local(n):
    """A loop whose body has an array of 65,536 bytes."""
    return "int f(int n) { int s = 0; for (int i = 0; i < n; i++) { unsigned char a[65536]; a[i & 65535] = 1; s += a[i & 65535]; } return s; }\n", [f"int:{n}"]


def calls_with_objects(n):
    """A chain of calls of functions with 100 objects each."""
    objects = ", ".join(f"a{i} = x" for i in range(100))
    text = "int g0(int x) { return x; }\n" + "".join(f"int g{i}(int x) {{ int {objects}; return g{i - 1}(a99) + a0; }}\n" for i in range(1, n))
    return text + f"int f(int n) {{ return g{n - 1}(n); }}\n", ["int:1"]


CASES = {
    "functions": (functions, 4096),
    "chain of functions": (chain_of_functions, 4096),
    "turns with a local": (turns_with_a_local, 50000),
    "calls with objects": (calls_with_objects, 1000),
}


def measured(command, text):
    """The seconds of the fastest of three runs, and the most megabytes that one of them had; or none, and how a run ended."""
    best, most = None, 0
    for _ in range(3):
        start = time.monotonic()
        process = subprocess.Popen(command, stdin=subprocess.PIPE, stdout=subprocess.DEVNULL)
        process.stdin.write(text.encode())
        process.stdin.close()
        _, status, usage = os.wait4(process.pid, 0)
        took = time.monotonic() - start
        if status != 0:
            return None, os.waitstatus_to_exitcode(status)
        best = took if best is None else min(best, took)
        most = max(most, usage.ru_maxrss / 1024)
    return best, most


def main():
    top = os.path.dirname(os.path.dirname(os.path.abspath(__file__)))
    script = os.path.join(top, "simdmove")
    subprocess.run([script, "migrate"], stdin=subprocess.DEVNULL, stdout=subprocess.DEVNULL, check=True)
    tool = os.path.join(top, "crates", "simdmove", "out", "simdmove")
    for name, (source, size) in CASES.items():
        took = []
        for n in (size // 4, size):
            text, items = source(n)
            took.append(measured([tool, "run", "x86", "f", "1000000", *items], text))
        (small, first), (large, most) = took
        if small is None or large is None:
            print(f"{name}: a run ended with {first if small is None else most} (below 0: that signal)")
            continue
        print(f"{name}: {size} in {large:.3f} s, growth from a quarter {large / small:.1f}, {most:.0f} MB")


if __name__ == "__main__":
    main()
