#!/usr/bin/env python3
"""How long `simdmove run` takes for many turns: run it at the top of the repository.

It runs loops of 250,000 and 1,000,000 turns: a sum in a variable, a copy byte by byte through pointers, rows of registers from one block to
another, and calls of a function. For each it prints the seconds (the least of three runs, with those of a run without turns taken off), the
nanoseconds of a turn, and how the time grows (4 is linear). Beside it stands the time of the same function by `gcc -O0 -fwrapv`.
"""
import os, subprocess, tempfile, time

TURNS = (250000, 1000000)
HEAD = "#include <emmintrin.h>\n"
LOOPS = {
    "sum": "unsigned f(int n) { unsigned s = 0; for (int i = 0; i < n; i++) s += i ^ 5; return s; }\n",
    "copy": "int f(int n) { unsigned char a[64] = {1}; unsigned char b[64] = {2}; for (int i = 0; i < n; i++) b[i & 63] = a[(i + 1) & 63]; return b[63]; }\n",
    "rows": "int f(int n) { unsigned char a[64] = {1}; for (int i = 0; i < n; i++) _mm_storeu_si128((__m128i *)(a + (i & 31)), _mm_add_epi8(_mm_loadu_si128((const __m128i *)a), _mm_loadu_si128((const __m128i *)(a + 16)))); return a[9]; }\n",
    "calls": "static int g(int x) { return x + 1; }\nint f(int n) { int s = 0; while (s < n) s = g(s); return s; }\n",
}


def seconds(command, text):
    best = None
    for _ in range(3):
        start = time.monotonic()
        subprocess.run(command, input=text.encode(), stdout=subprocess.DEVNULL, check=True)
        took = time.monotonic() - start
        best = took if best is None else min(best, took)
    return best


def compiled(folder, source, n):
    path = os.path.join(folder, "unit.c")
    with open(path, "w") as file:
        file.write(HEAD + source + "int main(void) { return (int)f(%d) == -1; }\n" % n)
    program = os.path.join(folder, "unit")
    subprocess.run(["gcc", "-O0", "-fwrapv", "-msse2", "-o", program, path], check=True)
    return seconds([program], "")


def main():
    top = os.path.dirname(os.path.dirname(os.path.abspath(__file__)))
    script = os.path.join(top, "simdmove")
    subprocess.run([script, "migrate"], stdin=subprocess.DEVNULL, stdout=subprocess.DEVNULL, check=True)
    tool = os.path.join(top, "crates", "simdmove", "out", "simdmove")
    with tempfile.TemporaryDirectory() as folder:
        for name, source in LOOPS.items():
            bound = str(1000000)
            start = seconds([tool, "run", "x86", "f", bound, "int:0"], HEAD + source)
            took = []
            for turns in TURNS:
                # a turn of the loop of calls is one of the loop and one of the call
                n = turns // 2 if name == "calls" else turns
                took.append(seconds([tool, "run", "x86", "f", bound, "int:%d" % n], HEAD + source) - start)
                last = n
            peer = compiled(folder, source, last)
            print(f"{name}: {TURNS[1]} turns in {took[1]:.3f} s, {took[1] / TURNS[1] * 1e9:.0f} ns a turn, growth from a quarter {took[1] / took[0]:.1f}; gcc -O0 {peer:.3f} s")


if __name__ == "__main__":
    main()
