"""How `networks` and `upgrades` compare a case: calls of snapc, reports at the ports of a network, and the loop over cases."""
import os
import subprocess
import sys
import tempfile

sys.dont_write_bytecode = True
sys.path.insert(0, os.path.join(os.path.dirname(os.path.realpath(__file__)), "..", "contrib", "tools"))
from snapc_tool import Fault


class Differs(Exception):
    """What goes wrong with a case."""


class Snapc:
    """The built program."""

    def __init__(self, program):
        self.program = program

    def run(self, *words):
        """Its status, and its output or its message, of which a call has one."""
        done = subprocess.run((self.program,) + words, stdin=subprocess.DEVNULL, stdout=subprocess.PIPE, stderr=subprocess.STDOUT)
        return done.returncode, done.stdout.decode()

    def output(self, *words):
        """Its output; the case differs where it has another status than 0."""
        status, text = self.run(*words)
        if status:
            raise Differs(f"{' '.join(words)}: {text.strip() or status}")
        return text

    def groups(self, program):
        lines = self.output("deps", program).splitlines()
        return [line.split()[1:] for line in lines if line.startswith("group ")]

    def same(self, wanted, *words):
        """The report of `trace` on these words; the case differs where it isn't what is wanted, but for hops where they are asked for."""
        report = told = self.output("trace", *words)
        if "--hops" in words:
            report = "".join(line for line in report.splitlines(True) if not line.startswith("hop "))
        if report != wanted:
            write("wanted", wanted)
            write("reported", report)
            raise Differs(f"another report of trace {' '.join(words)}")
        return told


def at_ports(report, ports):
    """What a report of one big switch is in a network: `ports` has the ports at each packet. Packets for others are counted as lost."""
    lines, lost, numbers = [], None, iter(ports)
    for line in report.splitlines():
        words = line.split(" ")
        if words[0] == "out":
            if int(words[2][len("outport="):]) in known:
                lines.append(line)
            else:
                lost += 1
            continue
        if lost is not None:
            lines.append(f"lost {lost}")
        lost = None
        if words[0] == "packet":
            lost, known = 0, next(numbers)
        lines.append(line)
    return "".join(line + "\n" for line in lines)


def write(name, text):
    with open(name, "w") as file:
        file.write(text)


def compare_cases(doc, compare, kinds):
    """Calls `compare(snapc, case)` for each case in an empty folder, prints what differs, and ends with the last line and the status.

    `compare` answers which of `kinds` the case is; the last line counts them.
    """
    name, words = os.path.basename(sys.argv[0]), sys.argv[1:]
    if not 1 <= len(words) <= 3 or not all(word.isdigit() for word in words[1:]):
        sys.exit(doc.split("\n\n")[1])
    snapc = Snapc(os.path.realpath(words[0]))
    cases = int(words[1]) if len(words) > 1 else 300
    first = int(words[2]) if len(words) > 2 else 1
    failed, counts = 0, {}
    for case in range(first, first + cases):
        with tempfile.TemporaryDirectory() as folder:
            os.chdir(folder)
            try:
                for kind in compare(snapc, case):
                    counts[kind] = counts.get(kind, 0) + 1
            except (Differs, Fault, LookupError, ValueError) as fault:
                failed += 1
                print(f"{name}: case {case}: {fault or repr(fault)}")
                for file in sorted(os.listdir(".")):
                    with open(file) as text:
                        print(f"==> {file}\n{text.read()}", end="")
            os.chdir("/")
    counted = ", ".join(f"{counts.get(kind, 0)} {kind}" for kind in kinds)
    print(f"{name}: {cases - failed} passed, {failed} failed; {counted}")
    sys.exit(failed > 0)
