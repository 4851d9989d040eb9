#!/usr/bin/env python3
"""All Neon rows by a real `arm_neon.h`: run it at the top of the repository; it wants `aarch64-linux-gnu-gcc` and `qemu-aarch64`, and says so and
skips where one is missing.

It reads the rows and their forms from crates/neon_*/specs/*Rows.antt and writes a C program that calls each. The first row of a formula has six calls,
every other row two. Registers have elements at 0, 1, 7F.., 80.., FF.. of their width, counts lie on both sides of the width, and constants go through
their range.

With no word it prints a table for the tests in crates/top_cases: the text of a function that calls the row, and behind it, on lines that begin with a
space, the items of a run and what it prints, `$` for a line end but the last. With `run PROGRAM` it runs `PROGRAM run neon` on each, compares, and
prints rows, calls and differences; with `cases FOLDER` it writes each unit, its words and its output as files NAME, NAME.args and NAME.stdout.
"""
import glob, os, random, re, shutil, subprocess, tempfile

import called_rows

COMPILER, EMULATOR = "aarch64-linux-gnu-gcc", "qemu-aarch64"
WIDTHS = {"8": 1, "16": 2, "32": 4, "64": 8}
WIDE = {"U8": "U16", "U16": "U32", "U32": "U64", "S8": "S16", "S16": "S32", "S32": "S64"}
SIZES = {"D": 8, "Q": 16, "Pair": 32}
MEMORY = bytes((i * 7 + i // 256) % 256 for i in range(64))


def words(text):
    """A form as a list of words, without the names of their modules."""
    return [word.split(".")[-1] for word in re.findall(r"[^\s()]+", text)]


def all_rows(top):
    found = {}
    for path in sorted(glob.glob(os.path.join(top, "crates", "neon_*", "specs", "*Rows.antt"))):
        for name, form in re.findall(r'= row \(codes "(\w+)"\) (.*)', open(path).read()):
            found[name] = words(form)
    return found


def width(lane):
    return WIDTHS[lane[1:]]


def base(lane):
    return ("u" if lane[0] == "U" else "") + "int" + lane[1:]


class Vector:
    """A vector of elements, of 8 or 16 bytes, or a pair of 16 bytes each."""

    def __init__(self, lane, size=16):
        self.lane, self.size = lane, size
        self.text = "uint8x16x2_t" if size == 32 else "%sx%d_t" % (base(lane), size // width(lane))


class Integer:
    def __init__(self, lane):
        self.lane, self.size, self.text = lane, 0, base(lane) + "_t"


class Pointer:
    def __init__(self, constant):
        self.text = "uint8_t const *" if constant else "uint8_t *"


class Constant:
    def __init__(self, low, high):
        self.low, self.high = low, high


def unsigned(lane):
    return "U" + lane[1:]


def signature(form):
    """What a row of the form gives, None for nothing, and what it takes."""
    kind, last = form[0], form[-1]
    bits, places = 8 * width(last) if last in WIDE or last in ("U64", "S64") else 0, 0
    if bits:
        places = 128 // bits - 1
    q, d = (lambda lane: Vector(lane)), (lambda lane: Vector(lane, 8))
    byte = q("U8")
    if kind == "Reversed":
        lane = re.match(r"Rev\d\d(\w+)", last).group(1)
        return q(lane), [q(lane)]
    shapes = {
        "Each1": lambda: (q(last), [q(last)]),
        "Each2": lambda: (q(last), [q(last), q(last)]),
        "Permuted": lambda: (q(last), [q(last), q(last)]),
        "PairSums": lambda: (q(last), [q(last), q(last)]),
        "Compared": lambda: (q(unsigned(last)), [q(last), q(last)]),
        "Select": lambda: (q(last), [q(unsigned(last)), q(last), q(last)]),
        "ShiftBy": lambda: (q(last), [q(last), q("S" + last[1:])]),
        "ShiftLeft": lambda: (q(last), [q(last), Constant(0, bits - 1)]),
        "ShiftRight": lambda: (q(last), [q(last), Constant(1, bits)]),
        "Lengthen": lambda: (q(WIDE[last]), [d(last), d(last)]),
        "LengthenHigh": lambda: (q(WIDE[last]), [q(last), q(last)]),
        "LongPairSums": lambda: (q(WIDE[last]), [q(last)]),
        "Reduce": lambda: (Integer(last), [q(last)]),
        "ReduceHalf": lambda: (Integer(last), [d(last)]),
        "Widen": lambda: (q(WIDE[last]), [d(last)]),
        "WidenHigh": lambda: (q(WIDE[last]), [q(last)]),
        "Narrowed": lambda: (d(last), [q(WIDE[last])]),
        "NarrowedUnsigned": lambda: (d(unsigned(last)), [q(WIDE[last])]),
        "ShiftNarrowed": lambda: (d(last), [q(WIDE[last]), Constant(1, bits)]),
        "Extract": lambda: (byte, [byte, byte, Constant(0, 15)]),
        "Lookup": lambda: (byte, [byte, byte]),
        "LookupPair": lambda: (byte, [Vector("U8", 32), byte]),
        "DuplicateLane": lambda: (q(last), [q(last), Constant(0, places)]),
        "Duplicate": lambda: (q(last), [Integer(last)]),
        "Create": lambda: (d("U8"), [Integer("U64")]),
        "Combine": lambda: (q(last), [d(last), d(last)]),
        "Half": lambda: (d(last), [q(last)]),
        "GetLane": lambda: (Integer(last), [q(last), Constant(0, places)]),
        "SetLane": lambda: (q(last), [Integer(last), q(last), Constant(0, places)]),
        "Reinterpret": lambda: (q(form[1]), [q(form[2])]),
        "ReinterpretHalf": lambda: (d(form[1]), [d(form[2])]),
        "Load": lambda: (Vector("U8", SIZES[last]), [Pointer(True)]),
        "Store": lambda: (None, [Pointer(False), Vector("U8", SIZES[last])]),
    }
    return shapes[kind]()


def element(rng, lane):
    bits = 8 * width(lane)
    return rng.choice([0, 1, 2 ** (bits - 1) - 1, 2 ** (bits - 1), 2 ** (bits - 1) + 1, 2 ** bits - 2, 2 ** bits - 1, rng.randrange(2 ** bits)])


def register(rng, vector):
    return b"".join(element(rng, vector.lane).to_bytes(width(vector.lane), "little") for _ in range(vector.size // width(vector.lane)))


def counts(rng, vector):
    """Elements whose low bytes are counts on both sides of the width, with other bytes above them."""
    w = width(vector.lane)
    bits = 8 * w
    low = [0, 1, bits - 1, bits, bits + 1, 127, 255, 256 - bits + 1, 256 - bits, 256 - bits - 1, 128]
    return b"".join(bytes([rng.choice(low) % 256]) + bytes(rng.randrange(256) for _ in range(w - 1)) for _ in range(16 // w))


def indices(rng):
    return bytes(rng.choice([rng.randrange(32), 15, 16, 31, 32, 127, 128, 255]) for _ in range(16))


class Call:
    """One call: its C arguments, the function's parameters, what is passed on, and the items of a run."""

    def __init__(self, name, form, rng, turn):
        self.name, self.form = name, form
        self.result, kinds = signature(form)
        self.code, self.params, self.passed, self.items, self.block = [], [], [], [], None
        for place, kind in enumerate(kinds):
            self.argument(kind, place, rng, turn)

    def parameter(self, kind, code, item):
        name = "p%d" % len(self.params)
        self.params.append("%s%s%s" % (kind.text, "" if kind.text.endswith("*") else " ", name))
        self.code.append(code)
        self.passed.append(name)
        self.items.append(item)

    def argument(self, kind, place, rng, turn):
        if isinstance(kind, Constant):
            steps = [kind.high, kind.low] + [rng.randint(kind.low, kind.high) for _ in range(2)]
            constant = str(steps[turn % len(steps)])
            self.code.append(constant)
            self.passed.append(constant)
        elif isinstance(kind, Pointer):
            self.block = MEMORY if kind.text == "uint8_t const *" else bytes(64)
            self.parameter(kind, "memory + 3" if self.block == MEMORY else "area + 3", "at:0:3")
        elif isinstance(kind, Integer):
            value = element(rng, kind.lane)
            signed = value - 2 ** (8 * width(kind.lane)) if kind.lane[0] == "S" and value >= 2 ** (8 * width(kind.lane) - 1) else value
            self.parameter(kind, "(%s)0x%xULL" % (kind.text, value), "int:%d" % signed)
        else:
            data = counts(rng, kind) if self.form[0] == "ShiftBy" and place == 1 else indices(rng) if self.form[0].startswith("Lookup") and place == 1 else register(rng, kind)
            self.parameter(kind, "*(%s const *)(_Alignas(32) unsigned char const[]){%s}" % (kind.text, ",".join(map(str, data))), "vec:" + data.hex())


def all_calls(rows):
    rng, seen, calls = random.Random(1), set(), []
    for name, form in sorted(rows.items()):
        formula = " ".join(word for word in form if word not in WIDE and word not in ("U64", "S64"))
        for turn in range(6 if formula not in seen else 2):
            calls.append(Call(name, form, rng, turn))
        seen.add(formula)
    return calls, len(seen)


def program(calls):
    """The C program that prints the value of each call on a line."""
    out = ["#include <arm_neon.h>", "#include <stdio.h>", "#include <string.h>", "static unsigned char memory[64], area[64];", "",
           "static void show(void const *p, int n) { for (int i = 0; i < n; i++) printf(\"%02x\", ((unsigned char const *)p)[i]); puts(\"\"); }",
           "static void fill(void) { for (int i = 0; i < 64; i++) memory[i] = (unsigned char)(i * 7 + i / 256); memset(area, 0, 64); }"]
    for k, call in enumerate(calls):
        body = "%s(%s)" % (call.name, ", ".join(call.code))
        if call.result is None:
            text = "%s; show(area, 64);" % body
        elif call.result.size == 0:
            text = "%s r = %s; printf(\"#%%llx\\n\", (unsigned long long)(long long)r);" % (call.result.text, body)
        else:
            text = "%s r = %s; show(&r, %d);" % (call.result.text, body, call.result.size)
        out.append("static void call%d(void) { fill(); %s }" % (k, text))
    out.append("int main(void) { %s return 0; }" % " ".join("call%d();" % k for k in range(len(calls))))
    return "\n".join(out)


def by_neon(calls):
    with tempfile.TemporaryDirectory() as folder:
        path = os.path.join(folder, "rows.c")
        open(path, "w").write(program(calls))
        subprocess.run([COMPILER, "-O1", "-static", "-fno-strict-aliasing", "-o", path[:-2], path], check=True)
        return subprocess.run([EMULATOR, path[:-2]], check=True, capture_output=True, text=True).stdout.split()


def unit(call, value):
    """A unit whose function f makes the call, the words of a run, and what the run prints."""
    answer = call.result.text if call.result else "void"
    body = "%s%s(%s);" % ("return " if call.result else "", call.name, ", ".join(call.passed))
    source = "#include <arm_neon.h>\n\n%s f(%s) { %s }\n" % (answer, ", ".join(call.params), body)
    told = "value none"
    if call.result and call.result.size:
        told = "value vec " + value
    elif call.result:
        number = int(value[1:], 16)
        told = "value int %d" % (number - 2 ** 64 if call.result.lane[0] == "S" and number >= 2 ** 63 else number)
    blocks = []
    if call.block is not None:
        blocks = ["block:1:rw:" + call.block.hex()]
        told += "\nblock 0 " + (call.block.hex() if call.result else value)
    return source, ["run", "neon", "f", "0"] + blocks + call.items, told + "\n"


def main():
    missing = [tool for tool in (COMPILER, EMULATOR) if not shutil.which(tool)]
    if missing:
        print("skipped: no %s" % " and no ".join(missing))
        return
    rows = all_rows(os.path.dirname(os.path.dirname(os.path.abspath(__file__))))
    calls, formulas = all_calls(rows)
    values = by_neon(calls)
    told = [(call.name,) + unit(call, value) for call, value in zip(calls, values)]
    called_rows.answer_words("rows %d, formulas %d, calls %d" % (len(rows), formulas, len(values)), told)


if __name__ == "__main__":
    main()
