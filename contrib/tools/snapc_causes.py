"""The causes of what snapc says of a file: of each kind of files those that its own reading finds.

The first one must be that of which snapc speaks, or else the reading isn't that of snapc, and nothing of it is shown.
"""
import os
import re
import sys

sys.dont_write_bytecode = True
import snapc_causes_lines
import snapc_causes_tables
from snapc_call import VALUED, FILES, FLAGS, lines_of, text_of
from snapc_causes_packets import of_packets, scope_of_program, scope_of_tables
from snapc_causes_program import MOST_BYTES, clashes, of_program, of_race
from snapc_causes_toml import Document, of_demand, of_placement, of_topology
from snapc_finding import Finding
from snapc_looks import looks_like
from snapc_nearest import hint, listed, shown
from snapc_program import Program
from snapc_tool import BYTES

ARTICLES = {"tables": "a file of tables", "packets": "a packets file", "changes": "a changes file",
            "schedule": "a schedule", "report": "a report",
            "program": "a program", "topology": "a topology", "placement": "a placement", "demand": "a demand"}
LIMITS = {"components": 64, "arrays": 64, "atoms": "8 in an index", "nodes": 2000, "weight": 16777216, "switches": 256, "links": 4096,
          "ports": 1024, "demands": 65536, "changes": 16}
LIMITED = {"switches": "topology", "links": "topology", "ports": "topology", "demands": "demand"}
NO_FORM = ("unexpected token", "bad byte", "bad number")  # a text that is of another kind, and no program with a fault


def causes_of(call, kind, name, first):
    """What is found of a file, and whether all of it was looked at."""
    lines = lines_of(name)
    looks = looks_like(lines) if kind != "program" or first.words in NO_FORM else kind
    if looks not in (None, kind) and not first.words.startswith(("undefined", "unreachable")):
        wanted = call.form() if kind in FILES[call.command] else f"--{kind} names"
        cause = f"this looks like {ARTICLES[looks]}, and {ARTICLES[kind]} stands here in '{wanted}'" if wanted[0] == "s" else \
            f"this looks like {ARTICLES[looks]}, and --{kind} names {ARTICLES[kind]}"
        return [first._replace(cause=cause, known=True)], True
    found = KINDS[kind](call, name, first)
    return found if isinstance(found, tuple) else (found, True)


def program_of(call):
    """The program of a call, where it is small enough."""
    text = call.text("program")
    return Program(text) if len(text) <= MOST_BYTES else None


def arrays_of(call):
    program = program_of(call)
    return None if program is None else [word for word, name in program.names.items() if name.kind == "array"]


def topology_of(call):
    """The switches and the ports of the topology of a call; None where it isn't read."""
    table = Document(call.text("topology"), "topology").table or {}
    switches, ports = table.get("switches"), table.get("ports")
    return (switches, [int(port) for port in ports if port.isdigit()]) if isinstance(switches, list) and isinstance(ports, dict) else None


def causes_in_program(call, name, first):
    if first.words == "race":
        return of_race(text_of(name))
    if first.words == "declarations differ":
        declared = [declarations(Program(text_of(one))) for one in call.named("program") if len(text_of(one)) <= MOST_BYTES]
        cause = "" if len(declared) < 2 else snapc_causes_tables.difference(declared[0][0], declared[1][0], "field") or \
            snapc_causes_tables.difference(declared[0][1], declared[1][1], "array")
        return [first._replace(cause=cause)]
    return [] if first.words == "differ" else of_program(text_of(name))


def declarations(program):
    """The fields and the arrays of a program, in order."""
    inner = {f"{word}.{part}" for word, name in program.names.items() if name.kind == "split" for part in ("net", "host")}
    fields = [word + (f"/{name.length}" if name.length else "") for word, name in program.names.items()
              if name.kind in ("plain", "split") and word not in inner]
    return fields, [word for word, name in program.names.items() if name.kind == "array"]


def causes_in_packets(call, name, first):
    program = program_of(call) if call.command == "obs" else None
    if first.words.startswith("undefined"):
        texts = clashes(program) if program else []
        cause = "two parts of the program clash on it: " + ("one of these: " if len(texts) > 1 else "") + listed(texts, 3, "; ")
        return [first._replace(cause=cause)] if texts else []
    if call.command == "obs":
        scope = scope_of_program(program) if program else None
    else:
        tables = call.named("tables")
        scope = scope_of_tables(snapc_causes_tables.head_of(lines_of(tables[0])), len(tables) == 1) if tables else None
    return of_packets(lines_of(name), first.line, scope) if scope else []


def causes_in_topology(call, name, _):
    return of_topology(text_of(name))


def causes_in_placement(call, name, first):
    arrays, topology = arrays_of(call), topology_of(call)
    return [] if arrays is None or topology is None else of_placement(text_of(name), arrays, topology[0], first.words)


def causes_in_demand(call, name, first):
    arrays, topology = arrays_of(call), topology_of(call)
    return [] if arrays is None or topology is None else of_demand(text_of(name), arrays, *topology, first.words)


def causes_in_tables(call, name, first):
    lines = lines_of(name)
    rule = re.fullmatch(r"tables: rule (\w+) line \d+", first.words)
    if rule:
        return snapc_causes_tables.of_rule(lines, rule[1], first.line)
    if first.words == "tables: version 1":
        return [first._replace(cause="'--ordered' takes tables of version 2, which 'compile' writes without '--on-demand'")]
    return snapc_causes_tables.of_form(lines, first.line)


def causes_in_schedule(call, name, first):
    packets = [line for one in call.named("packets") for line in lines_of(one) if line.strip(" \t") and not line.startswith("#")]
    known = all(os.path.isfile(one) for one in call.named("packets"))
    return snapc_causes_lines.of_schedule(lines_of(name), first.line, len(packets) if known else None)


def causes_in_changes(call, name, first):
    tables = call.named("tables")

    def differs(other):
        heads = [snapc_causes_tables.head_of(lines_of(one)) for one in (tables[0], os.fsdecode(other.encode(BYTES)))]
        cause = snapc_causes_tables.heads_differ(*heads)
        return cause and f"{shown(other)} has other fields or arrays: {cause}"

    return snapc_causes_lines.of_changes(lines_of(name), first.line, differs)


def limit_of(call, which, count):
    """The file that passes a limit, and what is found of it; None where that isn't sure."""
    words = f"limit: {which} {count}"
    if which in ("bytes", "lines"):
        passes = [name for _, name in call.files if (len(lines_of(name)) if which == "lines" else len(text_of(name))) >= count]
        return (passes[0], Finding(count if which == "lines" else 1, 1, words, f"at most {count - 1}", False)) if passes else None
    kind = "changes" if which == "changes" else "tables" if call.command == "trace" else LIMITED.get(which, "program")
    name = call.file(kind, words)
    return (name, Finding(1, 1, words, f"{ARTICLES[kind]} has at most {LIMITS[which]}", False)) if name and which in LIMITS else None


KINDS = {"program": causes_in_program, "packets": causes_in_packets, "topology": causes_in_topology, "placement": causes_in_placement,
         "demand": causes_in_demand, "tables": causes_in_tables, "schedule": causes_in_schedule, "changes": causes_in_changes}


def cause_of_unread(name):
    """Why a file can't be read."""
    if os.path.isdir(name):
        return "it is a directory"
    if os.path.exists(name):
        return "" if os.access(name, os.R_OK) else "nobody may read it who runs this"
    folder, base = os.path.split(name)
    try:
        return "there is no such file" + hint(base, os.listdir(folder or "."))
    except (OSError, ValueError):
        return ""


def cause_of_usage(call):
    """Which word is no part of a call, or how many files are wanted."""
    commands = list(FILES) + ["demo"]
    if not call.command:
        word = call.words[1] if len(call.words) > 1 else ""
        return f"{shown(word)} is no command{hint(word, commands)}" if word and word not in commands and word[0] != "-" else ""
    option = next((one for one in call.names if one.startswith("-") and one != "-"), None)
    if option:
        return f"{shown(option)} is no option{hint(option, VALUED + FLAGS)}"
    wanted = len(FILES[call.command])
    return f"'{call.form()}' has {wanted} file{'s' * (wanted > 1)}, and {len(call.names)} stand here" if wanted != len(call.names) else ""
