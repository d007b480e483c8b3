"""Rattle's source text, as far as tests/public_names.py and tests/shape.py ask of it: items, and what functions are
declared with.

What is not understood is an error, so that nothing is passed over.
"""

import re
from pathlib import Path
from typing import NamedTuple

ROOT = Path(__file__).resolve().parent.parent

TOKEN = re.compile(r"""
    (?P<blank> \s+ | //[^\n]* )
  | (?P<word> [^\W\d]\w* )
  | (?P<text> b?"(?:\\.|[^"\\])*" | b?'(?:\\.[^']*|[^'\\\n])' )
  | (?P<life> '[^\W\d]\w* )
  | (?P<digits> \d\w* )
  | (?P<mark> -> | => | :: | \S )
""", re.VERBOSE | re.DOTALL)

OPENING = {"(": ")", "[": "]", "{": "}"}
CLAUSES = ("requires", "ensures")


class Token(NamedTuple):
    kind: str
    text: str
    start: int
    end: int


class Clause(NamedTuple):
    """A clause of a function, as one line with the blanks before it."""
    label: str
    text: str


class Function(NamedTuple):
    """A function by its path, whether other crates can name it, its parameters, clauses and body."""
    path: str
    public: bool
    parameters: list
    clauses: list
    lines: int
    loops: int


class Item(NamedTuple):
    """A name that a crate has: its path, and what it is."""
    path: str
    what: str
    public: bool


class Source:
    """A file's tokens, read one after the other."""

    def __init__(self, file):
        self.file = file
        self.text = file.read_text()
        self.tokens = [Token(found.lastgroup, found[0], found.start(), found.end())
                       for found in TOKEN.finditer(self.text) if found.lastgroup != "blank"]
        self.at = 0

    def fail(self, why):
        raise SyntaxError(f"{self.file.relative_to(ROOT)}:{self.line()}: {why}")

    def line(self):
        """The line of the next token."""
        start = self.tokens[self.at].start if self.at < len(self.tokens) else len(self.text)
        return self.text.count("\n", 0, start) + 1

    def last_line(self):
        """The line of the token that was read last."""
        return self.text.count("\n", 0, self.tokens[self.at - 1].end) + 1

    def peek(self, ahead=0):
        """The text of a token that is to come, or nothing at the end."""
        return self.tokens[self.at + ahead].text if self.at + ahead < len(self.tokens) else ""

    def next(self):
        """The text of the next token, which is read."""
        self.at += 1
        return self.tokens[self.at - 1].text if self.at <= len(self.tokens) else self.fail("the file ends too early")

    def take(self, *texts):
        """Whether the next token is one of these; it is read then."""
        taken = self.peek() in texts and self.at < len(self.tokens)
        self.at += taken
        return taken

    def begins_function(self):
        """Whether a function comes next."""
        ahead = 0
        while self.peek(ahead) in ("const", "unsafe", "extern") or self.peek(ahead).startswith('"'):
            ahead += 1
        return self.peek(ahead) == "fn"

    def want(self, text):
        if not self.take(text):
            self.fail(f"{text!r} is wanted, not {self.peek()!r}")

    def name(self):
        if self.at >= len(self.tokens) or self.tokens[self.at].kind not in ("word", "digits"):
            self.fail(f"a name is wanted, not {self.peek()!r}")
        return self.next()

    def group(self):
        """Reads what stands between brackets, which come next; answers where its tokens are."""
        first = self.at
        closing = [OPENING[self.next()]]
        while closing:
            text = self.next()
            if text in OPENING:
                closing.append(OPENING[text])
            elif text in OPENING.values() and text != closing.pop():
                self.fail(f"{text!r} closes nothing")
        return first + 1, self.at - 1

    def angles(self):
        """Reads generics, if they come next, and answers their text."""
        first, depth = self.at, 0
        while depth or self.peek() == "<":
            if self.peek() in OPENING:
                self.group()
            else:
                text = self.next()
                depth += (text == "<") - (text == ">")
            if depth == 0:
                break
        return self.said(first, self.at)

    def until(self, *texts):
        """Reads up to one of these, which is not in brackets; answers the tokens before it."""
        first = self.at
        while self.peek() not in texts:
            if self.peek() in OPENING:
                self.group()
            else:
                self.next()
        return first, self.at

    def said(self, first, end):
        """Tokens as text."""
        text = ""
        for before, token in zip([None, *self.tokens[first:end]], self.tokens[first:end]):
            apart = before and (before.text in ",:" or {before.kind, token.kind} <= {"word", "digits", "life", "text"})
            text += f" {token.text}" if apart else token.text
        return text

    def split(self, first, end):
        """What commas part, between tokens: those that stand in no brackets, nor in angles out of brackets."""
        parts, began, depth, angles = [], first, 0, 0
        for at in range(first, end):
            text = self.tokens[at].text
            depth += (text in OPENING) - (text in OPENING.values())
            if depth == 0:
                angles += (text == "<") - (text == ">")
            if text == "," and depth == angles == 0:
                parts.append((began, at))
                began = at + 1
        return [part for part in [*parts, (began, end)] if part[0] < part[1]]


class Crate:
    """The items and functions of a crate, from all files of its src/."""

    def __init__(self, name):
        self.name = name
        self.items = []
        self.functions = []
        self.types = {}  # by name, of each module that has such a type its path and whether it is public
        self.impls = []  # the module, generics, the trait, the type's name and its text
        self.src = ROOT / "crates" / name / "src"
        self.is_program = (self.src / "main.rt").exists()
        for file in sorted(self.src.rglob("*.rt")):
            parts = file.relative_to(self.src).with_suffix("").parts
            module = "::".join([name, *(() if parts in (("lib",), ("main",)) else parts)])
            source = Source(file)
            while source.at < len(source.tokens):
                self.read_item(source, module)
        self.settle()

    def read_item(self, source, module):
        """Reads one item."""
        derived = []
        while source.take("#"):
            source.take("!")
            first, end = source.group()
            if source.tokens[first].text == "derive":
                derived += [source.said(*part) for part in source.split(first + 2, end - 1)]
            elif source.tokens[first].text == "cfg":
                source.fail("an item that is not always there")
        if source.at >= len(source.tokens):
            return
        public = self.read_visibility(source)
        if source.begins_function():
            self.items.append(Item(self.read_function(source, module, public).path, "fn", public))
            return
        match source.next():
            case "ghost":
                source.want("use")
                source.until(";")
                source.next()
            case "use":
                first, end = source.until(";")
                source.next()
                if public:
                    self.add_uses(source, module, first, end)
            case "mod":
                path = f"{module}::{source.name()}"
                self.items.append(Item(path, "mod", public))
                source.want(";")
            case "type" | "static" | "const" as what:
                self.items.append(Item(f"{module}::{source.name()}", what, public))
                source.until(";")
                source.next()
            case "struct":
                self.read_struct(source, module, public, derived)
            case "enum":
                self.read_enum(source, module, public, derived)
            case "trait":
                self.read_trait(source, module, public)
            case "impl":
                self.read_impl(source, module)
            case other:
                source.fail(f"an item that begins with {other!r} is not understood")

    def read_visibility(self, source):
        """Whether a name is public; what is public within the crate alone is not."""
        if not source.take("pub"):
            return False
        if source.peek() == "(":
            source.group()
            return False
        return True

    def add_uses(self, source, module, first, end):
        """The names that a `pub use` gives."""
        text = "".join(token.text if token.text != "as" else " as " for token in source.tokens[first:end])
        before, brace, names = text.partition("{")
        for name in names.rstrip("}").split(",") if brace else [text]:
            if name:
                self.items.append(Item(f"{module}::{(name.rpartition(' as ')[2] or name).rpartition('::')[2]}",
                                       f"use of {before + name if brace else name}", True))

    def add_type(self, source, module, public, derived):
        name = source.name()
        path = f"{module}::{name}"
        self.types.setdefault(name, {})[module] = path, public
        self.impls += [(module, "", trait, name, name) for trait in derived]
        source.angles()
        return path

    def read_struct(self, source, module, public, derived):
        path = self.add_type(source, module, public, derived)
        self.items.append(Item(path, "struct", public))
        shape = source.peek()
        if shape in ("{", "("):
            for index, (first, end) in enumerate(source.split(*source.group())):
                field = Part(source, first, end)
                visible = self.read_visibility(field.skip_attributes())
                if field.take("ghost"):
                    self.items.append(Item(f"{path}.{field.name()}", source.said(first, end), public))
                    continue
                name = field.name() if shape == "{" else str(index)
                self.items.append(Item(f"{path}.{name}", "field", public and visible))
        if shape != "{":
            source.want(";")

    def read_enum(self, source, module, public, derived):
        path = self.add_type(source, module, public, derived)
        self.items.append(Item(path, "enum", public))
        for first, end in source.split(*source.group()):
            case = Part(source, first, end).skip_attributes()
            name = case.name()
            held = source.said(*case.group()) if case.peek() == "(" else ""
            self.items.append(Item(f"{path}::{name}", f"case({held})" if held else "case", public))
            if case.peek() == "{":
                for part in source.split(*case.group()):
                    field = Part(source, *part).skip_attributes()
                    self.items.append(Item(f"{path}::{name}.{field.name()}", "field", public))

    def read_trait(self, source, module, public):
        path = self.add_type(source, module, public, [])
        self.items.append(Item(path, "trait", public))
        if source.take(":"):
            source.until("{")
        self.read_members(source, path, lambda _: public)

    def read_impl(self, source, module):
        generics = source.angles()
        first, end = source.until("for", "{")
        if source.take("for"):
            trait = source.said(first, end)
            first, end = source.until("{")
            head = source.tokens[first].text
            self.impls.append((module, generics, trait, head, source.said(first, end)))
            # these functions are the trait's
            self.read_members(source, f"{module}::<{source.said(first, end)} as {trait}>", lambda _: False, False)
            return
        # the type's path is known once all files are read
        self.read_members(source, f"{module}|{source.tokens[first].text}", lambda visible: visible)

    def read_members(self, source, owner, is_public, is_listed=True):
        """What stands in a trait or an impl."""
        source.want("{")
        while not source.take("}"):
            while source.take("#"):
                first, _ = source.group()
                if source.tokens[first].text == "cfg":
                    source.fail("an item that is not always there")
            public = is_public(self.read_visibility(source))
            if source.begins_function():
                function = self.read_function(source, owner, public)
                path, what = function.path, "fn"
            else:
                what = source.next()
                if what not in ("ghost", "type", "const"):
                    source.fail(f"{what!r} in a trait or an impl is not understood")
                path = f"{owner}::{source.name()}"
                source.until(";")
                source.next()
            if is_listed:
                self.items.append(Item(path, what, public))

    def read_function(self, source, owner, public):
        """A function with its clauses; its body is looked through for loops, and for functions in it, which are an error."""
        while not source.take("fn"):
            source.next()
        path = f"{owner}::{source.name()}"
        source.angles()
        parameters = [source.said(*part) for part in source.split(*source.group())]
        if source.take("->"):
            source.until("where", "{", ";", *CLAUSES)
        if source.take("where"):
            source.until("{", ";", *CLAUSES)
        clauses = []
        while source.peek() in CLAUSES:
            clauses.append(self.read_clause(source))
        loops, began = 0, source.line()
        if not source.take(";"):
            first, end = source.group()
            words = [token.text for token in source.tokens[first:end]]
            if "fn" in words:
                source.fail(f"a function in the body of {path}")
            loops = sum(word in ("for", "while", "loop") for word in words)
        found = Function(path, public, parameters, clauses, source.last_line() - began + 1, loops)
        self.functions.append(found)
        return found

    def read_clause(self, source):
        begun = source.tokens[source.at].start
        kind = source.next()
        source.take("*")
        label = source.next() if source.peek() != "{" else ""
        source.group()
        if source.take("by"):
            source.group()
        text = source.text[source.text.rfind("\n", 0, begun) + 1:source.tokens[source.at - 1].end]
        lines = text.split("\n")
        return Clause(f"{kind} {label}".rstrip(), " ".join([lines[0], *map(str.strip, lines[1:])]))

    def type_of(self, module, name):
        """The path of a type that a module speaks of by name, and whether it is public; none if it is another crate's."""
        found = self.types.get(name, {})
        if module in found or len(found) < 2:
            return found.get(module) or next(iter(found.values()), None)
        raise SyntaxError(f"{module}: {name} is the name of several types of the crate")

    def settle(self):
        """Gives members of types their types' paths, and adds the traits that types have."""
        def settled(it):
            module, bar, rest = it.path.partition("|")
            if not bar:
                return it
            name, _, member = rest.partition("::")
            path, public = self.type_of(module, name)
            return it._replace(path=f"{path}::{member}", public=it.public and public)

        self.items = [settled(it) for it in self.items]
        self.functions = [settled(it) for it in self.functions]
        for module, generics, trait, name, text in self.impls:
            path, public = self.type_of(module, name) or (self.name, True)
            _, trait_public = self.type_of(module, trait.partition("<")[0]) or ("", True)
            what = f"impl {trait}" if path != self.name else f"impl{generics} {trait} for {text}"
            self.items.append(Item(path, what, public and trait_public))


class Part(Source):
    """Some of a source's tokens, read apart."""

    def __init__(self, source, first, end):
        self.file, self.text, self.tokens, self.at = source.file, source.text, source.tokens[:end], first

    def skip_attributes(self):
        while self.take("#"):
            self.group()
        return self


def crates():
    """The names of all crates, in the order of crates.txt."""
    lines = (ROOT / "crates.txt").read_text().splitlines()
    return [line.partition(":")[0].split()[0] for line in lines if ":" in line and not line.startswith("#")]
