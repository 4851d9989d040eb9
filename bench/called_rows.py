"""What the scripts for Intel's and Neon's rows share: a call is a name, a unit's text whose function f makes the call, the words of a run, and what the
run prints."""
import os, subprocess, sys


def compare(program, calls):
    """Runs the program on each call, prints where it tells something else, and gives how often."""
    differences = 0
    for name, source, arguments, told in calls:
        answer = subprocess.run([program] + arguments, input=source, capture_output=True, text=True)
        if answer.stdout != told:
            differences += 1
            print(source.splitlines()[2], *arguments[4:], "->", told, "but", answer.stdout or answer.stderr)
    return differences


def write_cases(folder, calls):
    """Writes each unit, its words and its output as files NAME, NAME.args and NAME.stdout."""
    for number, (name, source, arguments, told) in enumerate(calls):
        path = os.path.join(folder, "%s_%d" % (name, number))
        for ending, text in (("", source), (".args", "\n".join(arguments) + "\n"), (".stdout", told)):
            open(path + ending, "w").write(text)


def print_table(calls):
    """The table of the tests: each function, and behind it the items and the output of its runs, `$` for a line end but the last."""
    last = ""
    for name, source, arguments, told in calls:
        if source != last:
            print(source.splitlines()[2])
        last = source
        print(" %s -> %s" % (" ".join(arguments[4:]), told.strip().replace("\n", "$")))


def answer_words(counts, calls):
    """Does what the script's words ask for: `run PROGRAM`, `cases FOLDER`, or the table where there are none."""
    if sys.argv[1:2] == ["run"]:
        print("%s, differences %d" % (counts, compare(sys.argv[2], calls)))
        return
    if sys.argv[1:2] == ["cases"]:
        write_cases(sys.argv[2], calls)
    else:
        print_table(calls)
    print(counts, file=sys.stderr)
