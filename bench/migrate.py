#!/usr/bin/env python3
"""How long `simdmove migrate` takes beside `gcc -fsyntax-only` on the same file: run it at the top of the repository.

It makes units of the form that is migrated: many functions (1,024 and 4,096 of them, about 150,000 and 600,000 bytes), and fewer functions of
63 open calls (of the same sizes). For each it prints the seconds of both (the least of five runs), the ratio to the compiler's front end, and how
the tool's time grows (4 is linear). The compiler reads its own emmintrin.h, which costs it the time of the last line.
"""
import os, subprocess, tempfile, time

INCLUDE = "#include <emmintrin.h>\n"
PARAMETERS = "(__m128i a, __m128i b)"
MANY = "__m128i lane_kernel_%d" + PARAMETERS + " { return _mm_add_epi8(_mm_xor_si128(a, b), _mm_min_epu8(_mm_avg_epu8(a, b), _mm_sub_epi8(b, a))); }\n"
DEEP = "__m128i kernel_%d" + PARAMETERS + " { return " + "_mm_add_epi8(" * 63 + "a" + ", b)" * 63 + "; }\n"


def many(quarters):
    return INCLUDE + "".join(MANY % i for i in range(1024 * quarters))


def deep(quarters):
    return INCLUDE + "".join(DEEP % i for i in range(135 * quarters))


def seconds(command, path, passes=(0,)):
    best = None
    for _ in range(5):
        start = time.monotonic()
        with open(path) as file:
            code = subprocess.run(command, stdin=file, stdout=subprocess.DEVNULL).returncode
        took = time.monotonic() - start
        if code not in passes:
            raise SystemExit(f"{command[0]} ended with {code}")
        best = took if best is None else min(best, took)
    return best


def main():
    top = os.path.dirname(os.path.dirname(os.path.abspath(__file__)))
    script = os.path.join(top, "simdmove")
    subprocess.run([script, "migrate"], stdin=subprocess.DEVNULL, stdout=subprocess.DEVNULL, check=True)
    tool = [os.path.join(top, "crates", "simdmove", "out", "simdmove"), "migrate"]
    with tempfile.TemporaryDirectory() as folder:
        path = os.path.join(folder, "unit.c")
        peer = ["gcc", "-msse2", "-fsyntax-only", path]

        def measure(text):
            with open(path, "w") as file:
                file.write(text)
            return len(text), seconds(tool, path), seconds(peer, path)

        for name, make in (("many functions", many), ("deep functions", deep)):
            took = []
            for quarters in (1, 4):
                size, own, other = measure(make(quarters))
                took.append(own)
                print(f"{name}, {size} bytes: simdmove {own:.3f} s, gcc -fsyntax-only {other:.3f} s, ratio {own / other:.2f}")
            print(f"{name}: growth of simdmove from a quarter {took[1] / took[0]:.1f}")
        _, own, other = measure(INCLUDE)
        print(f"the include line alone: simdmove {own:.3f} s, gcc -fsyntax-only {other:.3f} s")


if __name__ == "__main__":
    main()
