#!/usr/bin/env python3
"""How the time of the check of types grows with its input: run it at the top of the repository; it wants `rt`.

It builds two small programs in a temporary folder: one parses the unit on standard input, the other checks it too. It runs both on
units of 150,000 and 600,000 bytes, and prints the seconds that the second takes more than the first (the least of five runs each)
and their ratio: 4 is linear.
"""
import os, tempfile

from parser import FUNCTION, HEAD, compare
from small_programs import build

PARSED = '''
// How many items the tokens' unit has%s. 0 where there is none.
fn counted(alloc: Global, tokens: &[Token]) -> usize {
    match parse(alloc, tokens, Dialect::X86) {
        Ok(unit) => %s,
        Err(_) => 0,
    }
}
'''
CHECKED = """match check(alloc, &unit, Dialect::X86) {
            Ok(typed) => typed.unit().items.as_slice().len(),
            Err(_) => 0,
        }"""


def program(imports, where, count):
    head = HEAD % ("items", imports, "{Dialect, Token, lex}", "counted(rt.alloc(), tokens.as_slice())")
    return head.replace("use std::io::{self, Read};", "use std::alloc::Global;\nuse std::io::{self, Read};") + PARSED % (where, count)


PROGRAMS = {
    "parse": program("use c_parse::parse;\n", "", "unit.items.as_slice().len()"),
    "parse_and_check": program("use c_parse::parse;\nuse vector_types::check;\n", ", where all have types", CHECKED),
}
USES = {"parse": "c_parse c_text c_tree", "parse_and_check": "c_parse c_text c_tree vector_types"}
TEXTS = {
    "functions": lambda n: b"".join(FUNCTION % i for i in range(n // len(FUNCTION))),
    "calls": lambda n: b"int g(int x) { return x; }\nint f(int x) {" + b"x = g(x) * 3 - (x >> 1);" * (n // 24) + b"return x; }\n",
    "locals": lambda n: b"int f(int x) {" + b"".join(b"int v%d = x; x += v%d;" % (i, i) for i in range(n // 26)) + b"return x; }\n",
    "tables": lambda n: b"".join(b"static const int t%d[] = {1, 2, 3};\n" % i for i in range(n // 37)),
}


def main():
    top = os.path.dirname(os.path.dirname(os.path.abspath(__file__)))
    with tempfile.TemporaryDirectory() as folder:
        compare(*build(top, folder, PROGRAMS, USES), TEXTS)


if __name__ == "__main__":
    main()
