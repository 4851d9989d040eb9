#!/usr/bin/env python3
"""All Intel rows by this processor: run it at the top of the repository; it wants `gcc` and a processor with AVX2.

It reads the rows and their forms from crates/intel_*/specs/*Rows.antt and writes a C program that calls each. The first row of a formula has three
calls or more, every other row one. Registers have lanes at 0, 1, 7F.., 80.., FF.. of every width, and counts lie on both sides of the width.

With no word it prints a table for the tests in crates/top_cases: the text of a function that calls the row, and behind it, on lines that begin with a
space, the items of a run and what it prints, `$` for a line end but the last. With `run PROGRAM` it runs `PROGRAM run x86` on each, compares, and
prints rows, calls and differences; with `cases FOLDER` it writes each unit, its words and its output as files NAME, NAME.args and NAME.stdout.
"""
import glob, os, random, re, subprocess, tempfile

import called_rows

LANES = {"Byte": 1, "Word": 2, "Dword": 4, "Qword": 8}
BYTES = {"Xmm": 16, "Ymm": 32}
BASE = 64
MEMORY = bytes((i * 7 + i // 256) % 256 for i in range(2 * BASE))
TYPES = {1: "char", 2: "short", 4: "int", 8: "long long"}


def words(text):
    """A form as nested lists."""
    stack = [[]]
    for word in re.findall(r"[()]|[^\s()]+", text):
        if word == "(":
            stack.append([])
        elif word == ")":
            last = stack.pop()
            stack[-1].append(last)
        else:
            stack[-1].append(word.split(".")[-1])
    return stack[0][0] if isinstance(stack[0][0], list) else stack[0]


def all_rows(top):
    found = {}
    for path in sorted(glob.glob(os.path.join(top, "crates", "intel_*", "specs", "*Rows.antt"))):
        for name, form in re.findall(r'= row \(codes "(\w+)"\) (.*)', open(path).read()):
            found[name] = words(form)
    return found


def edge(rng, size, width):
    """A register with lanes of that width at and beside the ends of the ranges."""
    bits = 8 * width
    ends = [0, 1, 2 ** (bits - 1) - 1, 2 ** (bits - 1), 2 ** (bits - 1) + 1, 2 ** bits - 2, 2 ** bits - 1, rng.randrange(2 ** bits)]
    return b"".join(rng.choice(ends).to_bytes(width, "little") for _ in range(size // width))


def flat(form):
    for part in form:
        yield from flat(part) if isinstance(part, list) else [part]


def width_of(form, rng):
    named = [LANES[word] for word in flat(form) if word in LANES]
    return named[0] if named else rng.choice([1, 2, 4, 8])


def numbers(size, width):
    return size // width


class Call:
    """One call: its C arguments, its arguments as a table has them, and its immediate."""

    def __init__(self, imm=0):
        self.imm, self.code = imm, []
        self.blocks, self.params, self.passed, self.items = [], [], [], []

    def parameter(self, kind, item):
        name = "p%d" % len(self.params)
        self.params.append("%s%s%s" % (kind, "" if kind.endswith("*") else " ", name))
        self.passed.append(name)
        self.items.append(item)

    def register(self, data):
        kind = "__m128i" if len(data) == 16 else "__m256i"
        load = "_mm_loadu_si128" if len(data) == 16 else "_mm256_loadu_si256"
        self.code.append("%s((%s const *)(unsigned char[]){%s})" % (load, kind, ",".join(map(str, data))))
        self.parameter(kind, "vec:" + data.hex())

    def integer(self, value, width):
        self.code.append("(%s)0x%xULL" % (TYPES[width], value % 2 ** (8 * width)))
        signed = value % 2 ** (8 * width)
        signed -= 2 ** (8 * width) if signed >= 2 ** (8 * width - 1) else 0
        self.parameter(TYPES[width], "int:%d" % signed)

    def constant(self):
        self.code.append(str(self.imm))
        self.passed.append(str(self.imm))

    def pointer(self, kind):
        """To the middle of bytes that are read, or to zeros."""
        data = MEMORY if "const" in kind else bytes(64)
        self.code.append("(%s)%s" % (kind, "(memory + %d)" % BASE if "const" in kind else "area"))
        self.blocks.append("block:64:rw:" + data.hex())
        self.parameter(kind, "at:0:%d" % (BASE if "const" in kind else 0))


def gathered(call, rng, form, masked):
    """The arguments of a gather."""
    size, indexing = BYTES[form[1]], form[2]
    element = 4 if indexing.startswith("Dwords") else 8
    index = 4 if indexing.endswith("Dwords") else 8
    lanes = size // max(element, index)
    result, indices = max(16, lanes * element), max(16, lanes * index)
    call.imm = rng.choice([1, 2, 4, 8])
    places = [rng.randrange(-7, 7) for _ in range(indices // index)]
    if masked:
        call.register(edge(rng, result, element))
    call.pointer("%s const *" % TYPES[element])
    call.register(b"".join((p % 2 ** (8 * index)).to_bytes(index, "little") for p in places))
    if masked:
        call.register(edge(rng, result, element))
    call.constant()
    return result


def memory_call(call, rng, form):
    """The arguments of a row that touches memory, and the bytes of its result, negative for what it stores."""
    kind = form[0]
    if kind in ("Gather", "MaskGather"):
        return gathered(call, rng, form, kind == "MaskGather")
    size = BYTES[form[1]] if len(form) > 1 else 16
    vector = "__m%di" % (8 * size)
    if kind in ("Load", "LoadLow"):
        call.pointer(vector + " const *")
        return size
    if kind in ("Store", "StoreLow"):
        call.pointer(vector + " *")
        call.register(edge(rng, size, 8))
        return -size
    width = LANES[form[2]]
    call.pointer(TYPES[width] + (" const *" if kind == "MaskLoad" else " *"))
    call.register(edge(rng, size, width))
    if kind == "MaskLoad":
        return size
    call.register(edge(rng, size, width))
    return -size


def scalar_call(call, rng, form, turn):
    kind = form[0]
    sizes = [BYTES[word] for word in form[1:] if word in BYTES]
    size = sizes[0] if sizes else 16
    width = LANES[form[-1]] if form[-1] in LANES else 4
    if kind == "SetAll":
        call.integer(int.from_bytes(edge(rng, 8, width)[:width], "little"), width)
    elif kind in ("Set", "SetReversed"):
        for _ in range(size // width):
            call.integer(int.from_bytes(edge(rng, 8, width)[:width], "little"), width)
    elif kind in ("SetHalves", "SetHalvesReversed"):
        call.register(edge(rng, 16, 8))
        call.register(edge(rng, 16, 8))
        return 32
    elif kind == "ToVector":
        call.integer(int.from_bytes(edge(rng, 8, width)[:width], "little"), width)
    elif kind == "FromVector":
        call.register(edge(rng, 16, width))
        return 0
    elif kind == "Extract":
        call.imm = rng.randrange(size // width) if turn else size // width - 1
        call.register(edge(rng, size, width))
        call.constant()
        return 0
    elif kind == "Insert":
        call.imm = rng.randrange(size // width) if turn else size // width - 1
        call.register(edge(rng, size, width))
        call.integer(rng.randrange(2 ** 64), 8 if width == 8 else 4)
        call.constant()
    elif kind == "ByteSigns":
        call.register(edge(rng, size, 1))
        return 0
    elif kind == "Tested":
        first = edge(rng, size, 8)
        second = [bytes(255 - b for b in first), bytes(b & 15 for b in first), edge(rng, size, 8), bytes(size)][turn % 4]
        call.register(first)
        call.register(second)
        return 0
    elif kind == "TestedOnes":
        call.register(bytes([255] * 16) if turn == 0 else bytes([255] * 15 + [127]) if turn == 1 else edge(rng, 16, 8))
        return 0
    return size


def across_call(call, rng, form):
    kind = form[-1]
    shapes = {"BroadcastHalf": (16,), "ZeroExtend": (16,), "LowHalf": (32,), "PermuteDwords": (32, 32), "PermuteQwords": (32,), "PermuteHalves": (32, 32),
              "ExtractHalf": (32,), "InsertHalf": (32, 16)}
    for size in shapes[kind]:
        call.register(edge(rng, size, 4))
    if kind in ("PermuteQwords", "PermuteHalves", "ExtractHalf", "InsertHalf"):
        call.imm = rng.randrange(256 if kind.startswith("Permute") else 2)
        call.constant()
    return 16 if kind in ("LowHalf", "ExtractHalf") else 32


def immediates(form, turn, rng):
    kind = form[2][0] if isinstance(form[2], list) else form[2]
    if kind == "Shifted":
        bits = 8 * LANES[form[2][2]]
        return [bits - 1, bits, rng.randrange(bits), 255, 0, 1][turn % 6]
    greatest = {("Xmm", "SumsOfFour"): 7, ("Ymm", "SumsOfFour"): 63, ("Xmm", "BlendDwords"): 15}.get((form[1], kind), 255)
    steps = [rng.randrange(1, greatest + 1), 15, 16, 31, 32, greatest, 0] if kind in ("AlignRight", "BytesUp", "BytesDown") else [rng.randrange(1, greatest + 1), greatest, 0]
    return steps[turn % len(steps)]


def make(form, turn, rng):
    """A call of a row of the form, and the bytes of its result: 0 for an integer, negative for what it stores."""
    call, kind = Call(), form[0]
    if kind == "Memory":
        return call, memory_call(call, rng, form[1] if isinstance(form[1], list) else [form[1]])
    if kind == "Scalar":
        return call, scalar_call(call, rng, form[1] if isinstance(form[1], list) else [form[1]], turn)
    if kind == "Across":
        return call, across_call(call, rng, form)
    size = BYTES[form[1]]
    width = width_of(form, rng)
    if kind in ("Extend", "Broadcast"):
        call.register(edge(rng, 16, {"B": 1, "W": 2, "D": 4}[form[3][0]] if kind == "Extend" else width))
        return call, size
    call.register(edge(rng, size, width))
    if kind in ("Two", "TwoImm", "BlendBytes"):
        shift = "ShiftBy" in list(flat(form))
        counts = b"".join(rng.choice([0, 1, 8 * width - 1, 8 * width, 8 * width + 1, 2 ** (8 * width) - 1]).to_bytes(width, "little") for _ in range(size // width))
        call.register(counts if shift else edge(rng, size, 1 if "ShuffleBytes" in flat(form) else width))
    if kind == "BlendBytes":
        call.register(edge(rng, size, 1))
    if kind == "Counted":
        bits = 8 * LANES[form[3]]
        count = [bits - 1, bits, 2 ** 32, 1, 2 ** 63, 0][turn % 6]
        call.register(count.to_bytes(8, "little") + edge(rng, 8, 8))
    if kind in ("OneImm", "TwoImm"):
        call.imm = immediates(form, turn, rng)
        call.constant()
    return call, size


def program(calls):
    """The C program that prints the value of each call on a line."""
    out = ["#include <immintrin.h>", "#include <stdio.h>", "#include <string.h>", "static _Alignas(64) unsigned char memory[%d], area[64];" % (2 * BASE),
           "",
           "static void show(void const *p, int n) { for (int i = 0; i < n; i++) printf(\"%02x\", ((unsigned char const *)p)[i]); puts(\"\"); }",
           "static void fill(void) { for (int i = 0; i < %d; i++) memory[i] = (unsigned char)(i * 7 + i / 256); memset(area, 0, 64); }" % (2 * BASE)]
    for k, (name, call, size) in enumerate(calls):
        body = "%s(%s)" % (name, ", ".join(call.code))
        if size < 0:
            text = "%s; show(area, %d);" % (body, -size)
        elif size == 0:
            text = "printf(\"#%%llx\\n\", (unsigned long long)(long long)%s);" % body
        else:
            text = "__m%di r = %s; show(&r, %d);" % (8 * size, body, size)
        out.append("static void call%d(void) { fill(); %s }" % (k, text))
    out.append("int main(void) { %s return 0; }" % " ".join("call%d();" % k for k in range(len(calls))))
    return "\n".join(out)


def unit(name, call, size, value):
    """A unit whose function f makes the call, the words of a run, and what the run prints."""
    answer = "void" if size < 0 else "__m%di" % (8 * size) if size else "long long" if name.endswith("64") else "int"
    body = "%s%s(%s);" % ("" if size < 0 else "return ", name, ", ".join(call.passed))
    source = "#include <immintrin.h>\n\n%s f(%s) { %s }\n" % (answer, ", ".join(call.params) or "void", body)
    if size:
        told = "value none" if size < 0 else "value vec " + value
    else:
        number = int(value[1:], 16)
        told = "value int %d" % (number - 2 ** 64 if number >= 2 ** 63 else number)
    for block in call.blocks:
        told += "\nblock 0 " + (value + "00" * (64 + size) if size < 0 else block.split(":")[3])
    return source, ["run", "x86", "f", "0"] + call.blocks + call.items, told + "\n"


def all_calls(rows):
    rng, seen, calls = random.Random(1), set(), []
    for name, form in sorted(rows.items()):
        formula = " ".join(word for word in flat(form) if word not in BYTES)
        several = {"OneImm": 6, "TwoImm": 7, "Counted": 6, "Scalar": 4}.get(form[0], 3)
        for turn in range(several if formula not in seen else 1):
            call, size = make(form, turn, rng)
            calls.append((name, call, size))
        seen.add(formula)
    return calls, len(seen)


def by_processor(calls):
    with tempfile.TemporaryDirectory() as folder:
        path = os.path.join(folder, "rows.c")
        open(path, "w").write(program(calls))
        subprocess.run(["gcc", "-O0", "-mavx2", "-w", "-o", path[:-2], path], check=True)
        return subprocess.run([path[:-2]], check=True, capture_output=True, text=True).stdout.split()


def main():
    top = os.path.dirname(os.path.dirname(os.path.abspath(__file__)))
    rows = {name: form for name, form in all_rows(top).items() if name != "_mm_cmpgt_epi64"}
    calls, formulas = all_calls(rows)
    values = by_processor(calls)
    told = [(name,) + unit(name, call, size, value) for (name, call, size), value in zip(calls, values)]
    called_rows.answer_words("rows %d, formulas %d, calls %d" % (len(rows), formulas, len(values)), told)


if __name__ == "__main__":
    main()
