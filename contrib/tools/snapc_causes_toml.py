"""Why a topology, a placement or a demand isn't one, or doesn't fit the others: docs/FORMATS.md has the faults, in this order."""
import re
import sys

sys.dont_write_bytecode = True
from snapc_finding import Finding
from snapc_nearest import hint, listed, nearest, shown
from snapc_program import KEYWORDS, WORD
from snapc_toml import Reader, Unread
from snapc_tool import Fault

SWITCH = re.compile(r"[A-Za-z0-9_.-]+")
KINDS = {str: "a string", int: "a number", bool: "true or false", list: "a list", dict: "a table"}


def kind(value):
    return KINDS[type(value)]


def is_switch(value):
    return isinstance(value, str) and bool(SWITCH.fullmatch(value))


def is_number(value, low, high):
    return type(value) is int and low <= value < high


def switch_cause(value):
    """Why a value is no name of a switch."""
    return f"{kind(value)} stands for a switch, and a name in quotes is wanted" if not isinstance(value, str) else \
        f"{shown(value)} is no name of a switch: those have letters, digits, '_', '.' and '-'" if value else "the name of a switch is empty"


class Document:
    """A file of TOML that is read, and what is wrong with it."""

    def __init__(self, text, what):
        self.what, self.findings, self.table, self.reader = what, [], None, None
        try:
            self.reader = Reader(text, "")
            self.table = self.reader.document()
        except Unread:
            pass
        except Fault as fault:
            self.findings.append(Finding(fault.line, fault.column, f"{what}: not TOML", fault.text))
        except RecursionError:
            pass
        for line, row in enumerate(text.split("\n"), 1):
            try:
                row.encode("latin-1").decode()
            except UnicodeDecodeError as fault:
                byte = f"byte {ord(row[fault.start]):02x} is no UTF-8"
                self.findings, self.table = [Finding(line, fault.start + 1, f"{what}: not TOML", byte)], None
                break

    def find(self, words, cause, path=None, key=False):
        """A fault at a value or a key; without a path in the whole file."""
        place = (self.reader.keys if key else self.reader.values).get(path) or self.reader.keys.get(path)
        self.findings.append(Finding(*(place or (1, 1)), f"{self.what}: {words}", cause, bool(place)))

    def shape(self, *keys):
        """Shape 1, where the keys are these."""
        unknown = [key for key in self.table if key not in keys]
        missing = [key for key in keys if key not in self.table]
        for key in unknown:
            near = nearest(key, missing)
            missing = [one for one in missing if one != near]
            self.find("shape 1", f"the key {shown(key)} isn't known" + (f"; did you mean {shown(near)}?" if near else
                                                                      f"; the keys are {listed(keys)}"), (key,), True)
        for key in missing:
            inside = next((table for table, rest in self.table.items() if isinstance(rest, dict) and key in rest), None)
            if inside:
                self.find("shape 1", f"the key '{key}' stands in the table [{inside}], and not before it", (inside, key), True)
            else:
                self.find("shape 1", f"the key '{key}' is missing")

    def list_of(self, words, key, what):
        """The list at a key; an empty one where it is none."""
        value = self.table.get(key, [])
        if not isinstance(value, list):
            self.find(words, f"'{key}' is {kind(value)}, and a list of {what} is wanted", (key,))
            return []
        return value

    def table_of(self, words, key, what):
        value = self.table.get(key, {})
        if not isinstance(value, dict):
            self.find(words, f"'{key}' is {kind(value)}, and a table of {what} is wanted", (key,))
            return {}
        return value


def of_topology(text):
    """What is wrong with a topology, and the parts of it that no link joins."""
    document = Document(text, "topology")
    if document.table is None:
        return document.findings
    document.shape("links", "ports", "switches")
    switches = document.list_of("shape 2", "switches", "names")
    if document.table.get("switches") == []:
        document.find("shape 2", "a topology has one switch or more", ("switches",))
    for at, one in enumerate(switches):
        if not is_switch(one):
            document.find("shape 2", switch_cause(one), ("switches", at))
    links = document.list_of("shape 3", "links", "pairs of switches")
    joined = [(at, link) for at, link in enumerate(links) if is_link(document, at, link)]
    ports = document.table_of("shape 4", "ports", "ports")
    for port, switch in ports.items():
        if not re.fullmatch("[1-9][0-9]{0,9}", port) or int(port) >= 2 ** 32:
            document.find("shape 4", f"{shown(port)} is no port: those are from 1 to {2 ** 32 - 1}, without a zero before them",
                          ("ports", port), True)
        elif not is_switch(switch):
            document.find("shape 4", switch_cause(switch), ("ports", port))
    for at, one in enumerate(switches):
        if is_switch(one) and one in switches[:at]:
            before = ":".join(map(str, document.reader.values["switches", switches.index(one)]))
            document.find(f"switch twice {one}", f"it stands at {before} already", ("switches", at))
    ends = [(end, ("links", at, side)) for at, link in joined for side, end in enumerate(link)]
    ends += [(ports[port], ("ports", port)) for port in sorted((one for one in ports if one.isdigit()), key=int) if is_switch(ports[port])]
    if switches:
        known = [one for one in switches if isinstance(one, str)]
        for one, path in ends:
            if one not in known:
                document.find(f"unknown switch {one}", "it isn't in 'switches'" + hint(one, known), path)
        if not document.findings:
            apart(document, switches, [link for _, link in joined])
    return document.findings


def is_link(document, at, link):
    """Whether a link is a list of two switches that differ; where it isn't, that is found."""
    count = len(document.findings)
    if not isinstance(link, list):
        document.find("shape 3", f"a link is {kind(link)}, and a list of two switches is wanted", ("links", at))
    elif len(link) != 2:
        document.find("shape 3", f"a link has two switches, and this has {len(link)}", ("links", at))
    else:
        for side, end in enumerate(link):
            if not is_switch(end):
                document.find("shape 3", switch_cause(end), ("links", at, side))
        if count == len(document.findings) and link[0] == link[1]:
            document.find("shape 3", f"a link joins two switches, and this {shown(link[0])} with itself", ("links", at, 1))
    return count == len(document.findings)


def apart(document, switches, links):
    """Finds the switches that no walk joins with the first."""
    part = {one: {one} for one in switches}
    for left, right in links:
        if part[left] is not part[right]:
            whole = part[left] | part[right]
            part.update((one, whole) for one in whole)
    other = next((one for one in switches if one not in part[switches[0]]), None)
    if other:
        groups = {id(part[one]): [name for name in switches if name in part[one]] for one in switches}
        shown_groups = [listed(map(shown, names)) for names in groups.values()]
        document.find("", "no link joins these parts: " + listed((f"({group})" for group in shown_groups), 4),
                      ("switches", switches.index(other)))
        document.findings[-1] = document.findings[-1]._replace(words=f"unreachable: {switches[0]} {other}")


def is_name(word):
    return bool(re.fullmatch(WORD, word)) and word not in KEYWORDS


def key_of(name):
    """A name as a key of TOML."""
    return f'"{name}"' if "." in name else name


def of_placement(text, arrays, switches, fault=""):
    """What is wrong with a placement, for the arrays of a program and the switches of a topology."""
    document = Document(text, "placement")
    if document.table is None:
        return document.findings
    table = document.table
    for key in table:
        if not is_name(key):
            cause = "is a keyword" if key in KEYWORDS else "isn't spelled like a name of a program"
            document.find("shape 1", f"{shown(key)} {cause}", (key,), True)
    inner = set()  # names with a dot that have no quotes
    for key, value in table.items():
        if isinstance(value, dict):
            inner |= {f"{key}.{one}" for one in value if f"{key}.{one}" in arrays}
            dotted = next((name for name in arrays if name in inner and name.startswith(f"{key}.")), None)
            document.find("shape 2", f"a name with a dot has quotes: \"{dotted}\"" if dotted else
                          f"{shown(key)} is a table, and the name of a switch is wanted", (key,), True)
        elif not is_switch(value):
            document.find("shape 2", switch_cause(value), (key,))
    missing = [one for one in arrays if one not in table and one not in inner]
    for key in sorted(one for one in table if one not in arrays and is_name(one) and is_switch(table[one])):
        near = nearest(key, missing)
        cause = f"; did you mean {shown(near)}?" if near else f"; its arrays are {listed(arrays)}" if arrays else "; it has no arrays"
        document.find(f"no array {key}", "the program has none of this name" + cause, (key,), True)
    for one in missing:
        document.find(f"no place for {one}", f"a line {key_of(one)} = \"SWITCH\" is missing; the switches are {listed(switches)}")
    for one in arrays:
        if one in table and is_switch(table[one]) and table[one] not in switches:
            cause = f"{shown(table[one])} is no switch of the topology" + (
                hint(table[one], switches) or f"; its switches are {listed(switches)}")
            document.find(f"no switch for {one}", cause, (one,))
    found = re.fullmatch(r"placement: apart (\S+) (\S+)", fault)
    if found and not document.findings and all(isinstance(table.get(one), str) for one in found.groups()):
        first, second = found.groups()
        document.find(f"apart {first} {second}", f"the program ties them, so they stand at one switch, and here at {shown(table[first])} "
                      f"and {shown(table[second])}", (second,), True)
    return document.findings


def of_demand(text, arrays, switches, ports, fault=""):
    """What is wrong with a demand, for the arrays of a program and the switches and ports of a topology."""
    document = Document(text, "demand")
    if document.table is None:
        return document.findings
    document.shape("allowed", "demand")
    flows = document.list_of("shape 2", "demand", "flows")
    good = [(at, flow) for at, flow in enumerate(flows) if is_flow(document, at, flow)]
    allowed = document.table_of("shape 3", "allowed", "lists of switches")
    for key, value in allowed.items():
        if not is_name(key):
            document.find("shape 3", f"{shown(key)} is no name of an array", ("allowed", key), True)
        elif not isinstance(value, list):
            document.find("shape 3", f"{kind(value)} stands there, and a list of switches is wanted", ("allowed", key))
        else:
            for at, one in enumerate(value):
                if not is_switch(one):
                    document.find("shape 3", switch_cause(one), ("allowed", key, at))
    for at, flow in good:
        for side in (0, 1):
            if flow[side] not in ports:
                cause = f"the ports of the topology are {listed(map(str, sorted(ports)))}"
                document.find(f"no port {flow[side]}", cause, ("demand", at, side))
    for key in sorted(allowed):
        if key not in arrays and is_name(key):
            near = hint(key, arrays) or f"; its arrays are {listed(arrays)}"
            document.find(f"no array {key}", "the program has none of this name" + near, ("allowed", key), True)
    for key in arrays:
        for at, one in enumerate(allowed[key] if isinstance(allowed.get(key), list) else []):
            if is_switch(one) and one not in switches:
                document.find(f"no switch {one}", "the topology has none of this name" + (
                    hint(one, switches) or f"; its switches are {listed(switches)}"), ("allowed", key, at))
    found = re.fullmatch(r"demand: nowhere (\S+)", fault)
    if found and not document.findings:
        name = found[1]
        cause = "its list is empty" if allowed.get(name) == [] else "no switch is in the lists of all arrays that are tied with it"
        document.find(f"nowhere {name}", cause, ("allowed", name), True)
    return document.findings


def is_flow(document, at, flow):
    """Whether a flow is two ports and a weight; where it isn't, that is found."""
    count = len(document.findings)
    if not isinstance(flow, list) or len(flow) != 3:
        what = kind(flow) if not isinstance(flow, list) else f"a list of {len(flow)}"
        document.find("shape 2", f"a flow is two ports and a weight, and this is {what}", ("demand", at))
    else:
        for side, (one, name) in enumerate(zip(flow, ("port", "port", "weight"))):
            low = 1 if side < 2 else 0
            if not is_number(one, low, 2 ** 32):
                what = kind(one) if type(one) is not int else str(one)[:40]
                document.find("shape 2", f"a {name} is a number from {low} to {2 ** 32 - 1}, and this is {what}", ("demand", at, side))
    return count == len(document.findings)
