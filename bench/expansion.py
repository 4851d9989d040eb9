#!/usr/bin/env python3
"""How the time and the memory of directives and macros grow: run it at the top of the repository; it wants `rt` and `gcc`.

It builds a small program over crates/c_preproc in a temporary folder: it cuts standard input into tokens, expands and scans them, in the x86 dialect
up to 1 MiB and else in the Neon dialect, whose limit is 16 MiB. For each text it prints the seconds (the least of three runs) at a quarter of its size
and whole, what is left or the number of the refusal, how the time grows (4 is linear, and less where starting costs most), the greatest memory, and the
seconds of `gcc -E` on the whole text, or that it didn't end within 20 s and 2 GB.
"""
import os, resource, subprocess, tempfile, time

from small_programs import build

MAIN = '''//! Prints how many tokens directives and macros leave of standard input, or the number of the refusal.
#![tactic(auto)]

use c_preproc::{expand, scan};
use c_text::{Dialect, Fail, lex};
use std::alloc::Global;
use std::io::{self, Read};

fn left(alloc: Global, bytes: &[u8]) -> Result<usize, Fail> {
    if bytes.len() > 16_777_216 {
        return Ok(0);
    }
    let dialect = if bytes.len() > 1_048_576 {
        Dialect::Neon
    } else {
        Dialect::X86
    };
    let tokens = lex(alloc, bytes)?;
    let left = expand(alloc, tokens.as_slice(), dialect)?;
    scan(alloc, left.as_slice(), dialect)?;
    Ok(left.len())
}

fn main(rt: HostRuntime) -> io::Result<()> {
    let mut bytes = Vec::new(rt.alloc());
    rt.stdin().read_to_end(&mut bytes)?;
    match left(rt.alloc(), &bytes) {
        Ok(count) => println!(rt; "left {count}"),
        Err(Fail::Refused(r)) => {
            let number = r.number;
            println!(rt; "refused {number}")
        }
        Err(Fail::Memory) => println!(rt; "no memory"),
    }
}
'''
ROUNDS = 3


def doubled(last):
    return "#define A0 ;\n" + "".join(f"#define A{k} A{k - 1} A{k - 1}\n" for k in range(1, last + 1)) + f"A{last}\n"


def chain(last):
    return "#define B0 ;\n" + "".join(f"#define B{k} B{k - 1}\n" for k in range(1, last + 1)) + f"B{last}\n"


def parameters(uses):
    names = ["p%d" % i for i in range(1000)]
    return f"#define F({', '.join(names)}) {' '.join(names)}\n" + ("F(" + ",".join([";"] * 1000) + ")\n") * uses


# name: the text of so many quarters
TEXTS = {
    "nested uses, 100,000 deep": lambda q: "#define F(x) x\n" + "F(" * (25000 * q) + ";" + ")" * (25000 * q) + "\n",
    "nested brackets in a use, 100,000 deep": lambda q: "#define F(x)\n" + "F(" + "(" * (25000 * q) + ")" * (25000 * q) + ")\n",
    "100,000 definitions, each used": lambda q: "".join(f"#define M{i} ;\n" for i in range(25000 * q)) + "".join(f"M{i}\n" for i in range(25000 * q)),
    "100,000 definitions of one name, undefined": lambda q: "#define M ;\nM\n#undef M\n" * (25000 * q),
    "a macro of 1,000 parameters, 1,000 uses": lambda q: parameters(250 * q),
    "a chain of 100,000 elif": lambda q: "#if 0\n" + "#elif 0\n" * (25000 * q) + "#endif\n",
    "100,000 open conditionals": lambda q: "#if 1\n" * (25000 * q) + "#endif\n" * (25000 * q),
    "brackets in an if, 100,000 deep": lambda q: "#if " + "(" * (25000 * q) + "1" + ")" * (25000 * q) + "\n#endif\n",
    "a sum of 100,000 in an if": lambda q: "#if 1" + "+1" * (25000 * q) + "\n#endif\n",
    "choices in an if, 100,000 deep": lambda q: "#if " + "0?1:" * (25000 * q) + "1\n#endif\n",
    "includes, 40,000": lambda q: "#include <stdint.h>\n" * (10000 * q),
    "a number of 500,000 digits, 250,000 uses": lambda q: "#define N " + "1" * (125000 * q) + "\n" + "N " * (62500 * q) + "\n",
    "524,288 tokens of macros that double": lambda q: doubled(17 if q == 1 else 19),
    "too many tokens of macros that double": lambda q: doubled(20),
    "a chain of 64 bodies": lambda q: chain(63),
    "a chain of 65 bodies": lambda q: chain(64),
}


# the seconds, the greatest memory in MB, and whether it ended well
def run(command, path, rounds=ROUNDS, limits=lambda: None):
    best, most, well = None, 0, True
    for _ in range(rounds):
        start = time.monotonic()
        with open(path) as file:
            child = subprocess.Popen(command, stdin=file, stdout=subprocess.DEVNULL, stderr=subprocess.DEVNULL, preexec_fn=limits)
            _, wait, usage = os.wait4(child.pid, 0)
            child.returncode = os.waitstatus_to_exitcode(wait)
        took = time.monotonic() - start
        best = took if best is None else min(best, took)
        most = max(most, usage.ru_maxrss / 1024)
        well = well and child.returncode == 0
    return best, most, well


def peer_limits():
    resource.setrlimit(resource.RLIMIT_CPU, (20, 20))
    resource.setrlimit(resource.RLIMIT_AS, (2 << 30, 2 << 30))


def main():
    top = os.path.dirname(os.path.dirname(os.path.abspath(__file__)))
    with tempfile.TemporaryDirectory() as folder:
        program, = build(top, folder, {"count_left": MAIN}, {"count_left": "c_preproc c_text"})
        path = os.path.join(folder, "unit.c")
        for name, make in TEXTS.items():
            took = []
            for quarters in (1, 4):
                text = make(quarters)
                with open(path, "w") as file:
                    file.write(text)
                seconds, most, well = run([program], path)
                if not well:
                    raise SystemExit(f"{name}: the program failed")
                took.append(seconds)
            with open(path) as file:
                left = subprocess.run([program], stdin=file, capture_output=True, text=True).stdout.strip()
            peer, _, well = run(["gcc", "-E", "-o", os.devnull, path], path, 1, peer_limits)
            beside = f"gcc -E {peer:.3f} s, ratio {took[1] / peer:.2f}" if well else "gcc -E didn't end"
            print(f"{name}: {len(text)} bytes, {left}, {took[0]:.3f} s and {took[1]:.3f} s, growth {took[1] / took[0]:.1f}, at most {most:.0f} MB, {beside}", flush=True)


if __name__ == "__main__":
    main()
