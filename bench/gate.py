#!/usr/bin/env python3
"""What the gate costs, crate by crate: run it at the top of the repository, best alone on the machine; it wants `rt`.

It runs `rt ci` (with the words that it is given, as `--anew` or names of crates) and prints what that prints. Four times a second it reads from
/proc how much processor time each process of the prover has had, and at the end it prints for each crate the processor minutes of its proofs, of the
proofs of its tests and of its edits, and their sums. The last quarter of a second of a process may be missed. What is kept from earlier runs costs nothing and isn't shown, so for
the cost from nothing give `--anew`, or run it on a machine that has kept nothing.
"""
import collections, os, subprocess, sys, time

TICKS = os.sysconf("SC_CLK_TCK")
KINDS = ("proofs", "tests", "edits", "other")


def processes(session):
    """Each process of the prover in this session: what tells it from others, its crate, its kind, and its seconds so far."""
    for name in os.listdir("/proc"):
        if not name.isdigit():
            continue
        try:
            with open(f"/proc/{name}/cmdline", "rb") as file:
                words = file.read().decode(errors="replace").split("\0")
            if not os.path.basename(words[0]).startswith("rattle"):
                continue
            with open(f"/proc/{name}/stat") as file:
                fields = file.read().rpartition(")")[2].split()
            if int(fields[3]) != session:
                continue
            folder = os.readlink(f"/proc/{name}/cwd")
        except OSError:
            continue
        crate = words[words.index("--crate-name") + 1] if "--crate-name" in words else "(none)"
        kind = "edits" if "rt-edit-" in folder else "tests" if "--test" in words else "proofs" if words[1:2] in (["check"], ["build"]) else "other"
        yield (name, fields[19]), crate, kind, (int(fields[11]) + int(fields[12])) / TICKS


def main():
    seen = {}
    start = time.monotonic()
    gate = subprocess.Popen(["rt", "ci", *sys.argv[1:]], stdin=subprocess.DEVNULL, start_new_session=True)
    while gate.poll() is None:
        for key, crate, kind, seconds in processes(gate.pid):
            seen[key] = (crate, kind, seconds)
        time.sleep(0.25)
    wall = time.monotonic() - start
    rows = collections.defaultdict(lambda: dict.fromkeys(KINDS, 0.0))
    for crate, kind, seconds in seen.values():
        rows[crate][kind] += seconds / 60
        rows["in all"][kind] += seconds / 60
    print(f"\nprocessor minutes, {wall / 60:.1f} minutes on the clock, {os.cpu_count()} processors")
    print(f"{'crate':<20}" + "".join(f"{kind:>9}" for kind in KINDS) + f"{'sum':>9}")
    for crate, row in sorted(rows.items(), key=lambda item: (item[0] == "in all", -sum(item[1].values()))):
        print(f"{crate:<20}" + "".join(f"{row[kind]:>9.1f}" for kind in KINDS) + f"{sum(row.values()):>9.1f}")
    return gate.returncode


if __name__ == "__main__":
    sys.exit(main())
