#!/usr/bin/env python3
"""How the parser's and the printer's time grows with its input: run it at the top of the repository; it wants `rt`.

It builds two small programs over crates/c_parse and crates/c_print in a temporary folder: one cuts standard input into tokens, the
other parses the tokens too and prints the tree. It runs both on units of 150,000 and 600,000 bytes, and prints the seconds that the
second takes more than the first (the least of five runs each) and their ratio: 4 is linear.
"""
import os, subprocess, tempfile, time

from small_programs import build

HEAD = '''//! Prints how many %s the unit on standard input has.
#![tactic(auto)]

%suse c_text::%s;
use std::io::{self, Read};

fn main(rt: HostRuntime) -> io::Result<()> {
    let mut bytes = Vec::new(rt.alloc());
    rt.stdin().read_to_end(&mut bytes)?;
    if bytes.len() > 16_777_216 {
        return Ok(());
    }
    let count = match lex(rt.alloc(), &bytes) {
        Ok(tokens) => %s,
        Err(_) => 0,
    };
    println!(rt; "{count}")
}
'''
TAIL = '''
// The bytes of the tokens' unit, printed again. 0 where there is none.
fn printed(alloc: Global, tokens: &[Token]) -> usize {
    match parse(alloc, tokens, Dialect::X86) {
        Ok(unit) => match print(alloc, &unit) {
            Ok(text) => text.len(),
            Err(_) => 0,
        },
        Err(_) => 0,
    }
}
'''
PROGRAMS = {
    "cut": HEAD % ("tokens", "", "lex", "tokens.len()"),
    "parse_and_print": (
        HEAD
        % (
            "bytes of text, printed again,",
            "use c_parse::parse;\nuse c_print::print;\n",
            "{Dialect, Token, lex}",
            "printed(rt.alloc(), tokens.as_slice())",
        )
    ).replace("use std::io::{self, Read};", "use std::alloc::Global;\nuse std::io::{self, Read};")
    + TAIL,
}
USES = {"cut": "c_text", "parse_and_print": "c_parse c_print c_text"}
FUNCTION = b"""static inline int f%d(const uint8_t *p, size_t n) {
    int s = 0, t[4] = {1, 2, 3, 4};
    for (size_t i = 0; i < n; i++) {
        if (p[i] & 0x80) s += p[i] * t[i & 3]; else s -= (int)p[i] << 2;
    }
    return s > 0 ? s : -s;
}
"""
TEXTS = {
    "functions": lambda n: b"".join(FUNCTION % i for i in range(n // len(FUNCTION))),
    "one call": lambda n: b"int f(int x) { return g(x" + b", x" * (n // 3) + b"); }\n",
    "one block": lambda n: b"int f(int x) {" + b"x = x * 3 - (x >> 1);" * (n // 21) + b"return x; }\n",
    "one table": lambda n: b"static const int t[] = {" + b"1, " * (n // 3) + b"};\n",
}


def seconds(program, text):
    best = None
    for _ in range(5):
        start = time.monotonic()
        shown = subprocess.run([program], input=text, capture_output=True, check=True).stdout
        took = time.monotonic() - start
        if shown.strip() == b"0":
            raise SystemExit("the text is refused")
        best = took if best is None else min(best, took)
    return best


def compare(front, whole, texts):
    """Prints how much longer the second program takes than the first, on a quarter of each text and on all of it."""
    for name, make in texts.items():
        quarter, all_of_it = make(150000), make(600000)
        small = seconds(whole, quarter) - seconds(front, quarter)
        large = seconds(whole, all_of_it) - seconds(front, all_of_it)
        print(f"{name:10} {len(quarter)} bytes {small:.3f} s, {len(all_of_it)} bytes {large:.3f} s, ratio {large / small:.1f}")


def main():
    top = os.path.dirname(os.path.dirname(os.path.abspath(__file__)))
    with tempfile.TemporaryDirectory() as folder:
        compare(*build(top, folder, PROGRAMS, USES), TEXTS)


if __name__ == "__main__":
    main()
