"""Small programs over crates of this repository, for the scripts beside this one."""
import os, shutil, subprocess


def lines_of(top):
    """The lines of crates.txt, by the crate's name."""
    with open(os.path.join(top, "crates.txt")) as file:
        return {line.split(":")[0]: line for line in file if ":" in line}


def standing_below(lines, names):
    """The crates of the repository among these names and below them, in the order of crates.txt."""
    found, left = set(), list(names)
    while left:
        name = left.pop()
        if name in lines and name not in found:
            found.add(name)
            left += lines[name].split(":")[1].split()
    return [name for name in lines if name in found]


def make_crate(folder, name, source):
    crate = os.path.join(folder, "crates", name)
    for part in ("src", "specs", "proofs"):
        os.makedirs(os.path.join(crate, part))
    open(os.path.join(crate, "specs", "Lib.antt"), "w").close()
    with open(os.path.join(crate, "src", "main.rt"), "w") as file:
        file.write(source)
    return crate


def build(top, folder, programs, uses):
    """Builds the programs in the folder, each over the crates that `uses` names for it, and gives their paths in turn."""
    shutil.copy(os.path.join(top, "HANDLES"), folder)
    lines = lines_of(top)
    below = standing_below(lines, [name for names in uses.values() for name in names.split()])
    for name in below:
        shutil.copytree(os.path.join(top, "crates", name), os.path.join(folder, "crates", name), ignore=shutil.ignore_patterns("out", "must-fail"))
    crates = [make_crate(folder, name, source) for name, source in programs.items()]
    with open(os.path.join(folder, "crates.txt"), "w") as file:
        file.writelines([lines[name] for name in below] + [f"{name}: {uses[name]}\n" for name in programs])
    for name, crate in zip(programs, crates):
        built = subprocess.run(["rt", "run"], cwd=crate, stdin=subprocess.DEVNULL, capture_output=True, text=True)
        if built.returncode != 0:
            raise SystemExit(built.stdout + built.stderr)
        yield os.path.join(crate, "out", name)
