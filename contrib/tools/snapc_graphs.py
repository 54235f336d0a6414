"""Reads graphs of GraphML and of GML: nodes with their labels, and edges between them.

What the Internet Topology Zoo has of either is read: in GraphML `node`, `edge` and the `data` of the key whose `attr.name` is
`label`; in GML the lists `node` and `edge` of `graph`. All else is passed over, but a hyperedge is a fault, for no links say it.
"""
import html
import re
import sys
from xml.parsers import expat

sys.dont_write_bytecode = True
from snapc_tool import BYTES, Fault, read_text


class Graph:
    """Nodes in the order of the file, each with its label, '' where it has none; edges as pairs of nodes, with their lines."""

    def __init__(self, file):
        self.file = file
        self.labels = {}
        self.edges = []

    def add_node(self, node, line):
        if node in self.labels:
            raise Fault(self.file, line, f"node twice {shown(node)}")
        self.labels[node] = ""

    def add_edge(self, source, target, line):
        self.edges.append((source, target, line))

    def ended(self):
        """The graph, once it has nodes and its edges are between these."""
        if not self.labels:
            raise Fault(self.file, 0, "no nodes")
        for source, target, line in self.edges:
            for node in (source, target):
                if node not in self.labels:
                    raise Fault(self.file, line, f"unknown node {shown(node)}")
        return self


def shown(text):
    """A text of the file in a message: one line of ASCII."""
    return ascii(text)[1:-1][:80]


def read_graph(file):
    """The graph of a file, which is GraphML where it begins with `<`, and GML else."""
    data = read_text(file).encode(BYTES)
    begin = data.lstrip(b"\xef\xbb\xbf \t\r\n")[:1]
    return (GraphMl(file) if begin == b"<" or data[:2] in (b"\xff\xfe", b"\xfe\xff") else Gml(file)).read(data)


class GraphMl:
    """A reader of GraphML: what begins, ends and stands between, as expat tells it."""

    def __init__(self, file):
        self.graph = Graph(file)
        self.label_key = None
        self.nodes = []  # those that have begun
        self.text = None  # what stands in the label at hand
        self.parser = expat.ParserCreate(namespace_separator=" ")
        self.parser.buffer_text = True
        self.parser.StartElementHandler = self.begin
        self.parser.EndElementHandler = self.end
        self.parser.CharacterDataHandler = self.between
        self.parser.EntityDeclHandler = lambda *_: self.fault("an entity is declared")

    def fault(self, text):
        raise Fault(self.graph.file, self.parser.CurrentLineNumber, text)

    def read(self, data):
        try:
            self.parser.Parse(data, True)
        except expat.ExpatError as error:
            raise Fault(self.graph.file, error.lineno, f"not XML: {expat.ErrorString(error.code)}") from None
        except (LookupError, ValueError):  # what Python says of an encoding that it doesn't know
            self.fault("an unknown encoding")
        return self.graph.ended()

    def needed(self, element, attributes, name):
        if name not in attributes:
            self.fault(f"{element} without {name}")
        return attributes[name]

    def begin(self, name, attributes):
        element = name.split(" ")[-1]
        if element == "key" and attributes.get("attr.name") == "label" and attributes.get("for") in ("node", "all", None):
            self.label_key = self.needed(element, attributes, "id")
        elif element == "node":
            self.nodes.append(self.needed(element, attributes, "id"))
            self.graph.add_node(self.nodes[-1], self.parser.CurrentLineNumber)
        elif element == "edge":
            ends = [self.needed(element, attributes, name) for name in ("source", "target")]
            self.graph.add_edge(*ends, self.parser.CurrentLineNumber)
        elif element == "hyperedge":
            self.fault("a hyperedge")
        elif element == "data" and self.nodes and self.label_key and attributes.get("key") == self.label_key:
            self.text = ""

    def between(self, text):
        if self.text is not None:
            self.text += text

    def end(self, name):
        element = name.split(" ")[-1]
        if element == "data" and self.text is not None:
            self.graph.labels[self.nodes[-1]], self.text = self.text, None
        elif element == "node":
            self.nodes.pop()


class Gml:
    """A reader of GML: keys with a value each, a number, a string or a list of keys in brackets."""

    TOKEN = re.compile(r'(?P<blank>\s+|#[^\n]*)|(?P<open>\[)|(?P<close>\])|"(?P<string>[^"]*)"|(?P<word>[^\s\[\]"#]+)')

    def __init__(self, file):
        self.graph = Graph(file)
        self.line = 1

    def fault(self, text):
        raise Fault(self.graph.file, self.line, text)

    def read(self, data):
        try:
            text = data.decode("utf-8-sig")
        except UnicodeDecodeError:
            text = data.decode(BYTES)
        lists, key = [("", {}, 1)], None  # lists that are open: the key, what is known of it, the line
        for kind, token in self.tokens(text):
            if key is None and kind == "word":
                key = token
            elif key is None and kind == "close" and len(lists) > 1:
                self.closed([one[0] for one in lists[:4]], *lists.pop()[1:])
            elif key is None:
                self.fault("a key is missing")
            elif kind == "close":
                self.fault(f"{shown(key)} has no value")
            elif kind == "open":
                lists.append((key, {}, self.line))
                key = None
            else:
                lists[-1][1].setdefault(key, token)
                key = None
        if key is not None or len(lists) > 1:
            self.fault("the file ends within a list" if key is None else f"{shown(key)} has no value")
        return self.graph.ended()

    def tokens(self, text):
        """Each token with its kind, while `line` is that at which it begins."""
        at = 0
        while at < len(text):
            match = self.TOKEN.match(text, at)
            if not match:
                self.fault("a string has no end")
            if match.lastgroup != "blank":
                value = match[match.lastgroup]
                yield match.lastgroup, html.unescape(value) if match.lastgroup == "string" else value
            self.line += match[0].count("\n")
            at = match.end()

    def closed(self, path, known, line):
        """What the list says whose bracket was closed; the path has the keys of those around it, its own last."""
        if path == ["", "graph", "node"]:
            node = self.needed("node", known, "id", line)
            self.graph.add_node(node, line)
            self.graph.labels[node] = known.get("label", "")
        elif path == ["", "graph", "edge"]:
            self.graph.add_edge(*(self.needed("edge", known, name, line) for name in ("source", "target")), line)

    def needed(self, element, known, name, line):
        if name not in known:
            raise Fault(self.graph.file, line, f"{element} without {name}")
        return known[name]
