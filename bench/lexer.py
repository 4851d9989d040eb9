#!/usr/bin/env python3
"""How the lexer's time grows with its input: run it at the top of the repository; it wants `rt`.

It builds a small program over crates/c_text in a temporary folder, runs it on texts of 262,144 and 1,048,576 bytes, and
prints the seconds of each (the least of five runs) and their ratio: 4 is linear.
"""
import os, subprocess, tempfile, time

from small_programs import build

MAIN = '''//! Prints how many tokens standard input has.
#![tactic(auto)]

use c_text::lex;
use std::io::{self, Read};

fn main(rt: HostRuntime) -> io::Result<()> {
    let mut bytes = Vec::new(rt.alloc());
    rt.stdin().read_to_end(&mut bytes)?;
    if bytes.len() > 16_777_216 {
        return Ok(());
    }
    let count = match lex(rt.alloc(), &bytes) {
        Ok(tokens) => tokens.len(),
        Err(_) => 0,
    };
    println!(rt; "{count}")
}
'''
UNIT = b"/* a lane */ int f%d(const int *p) { return p[0] + 0x1fU * (p[1] >> 3); } // end\n"
TEXTS = {
    "units": lambda n: b"".join(UNIT % i for i in range(n // 60))[:n],
    "names": lambda n: (b"name_" * 10 + b" ") * (n // 51),
    "marks": lambda n: b"+" * n,
    "quotes": lambda n: b'"\\' * (n // 2),
    "spaces": lambda n: b" " * n,
}


def seconds(program, text):
    best = None
    for _ in range(5):
        start = time.monotonic()
        subprocess.run([program], input=text, stdout=subprocess.DEVNULL, check=True)
        took = time.monotonic() - start
        best = took if best is None else min(best, took)
    return best


def main():
    top = os.path.dirname(os.path.dirname(os.path.abspath(__file__)))
    with tempfile.TemporaryDirectory() as folder:
        program, = build(top, folder, {"count_tokens": MAIN}, {"count_tokens": "c_text"})
        for name, make in TEXTS.items():
            quarter, whole = seconds(program, make(262144)), seconds(program, make(1048576))
            print(f"{name:8} 262144 bytes {quarter:.3f} s, 1048576 bytes {whole:.3f} s, ratio {whole / quarter:.1f}")


if __name__ == "__main__":
    main()
