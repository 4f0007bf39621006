"""The ops of a script with their fields, as the definitions of crates/rd_script have them.

The tables stand in crates/rd_script/specs: `op_names` of Table.antt names the ops, and a row for each of them has its fields. This module
reads as much of these definitions as the rows are made of. Where they have another form than it knows it raises `Unknown`.
"""
import collections
import os
import re

from pages import TOP

SPECS = ["Table", "Fields", "Settings", "Objects", "Properties", "Forms"]

# A field of an op: its key, whether it is needed, its default where it has one, its range (a pair), its kind of value by the name of its
# form, and the words that it may have, in itself or within it.
Field = collections.namedtuple("Field", "key needed default range form words")

# A definition: its type, and its equations as pairs of patterns and bodies.
Definition = collections.namedtuple("Definition", "type equations")


class Unknown(Exception):
    """The definitions have a form that this module does not know."""


def definitions():
    """The definitions of the modules, by name."""
    found = {}
    for module in SPECS:
        with open(os.path.join(TOP, "crates", "rd_script", "specs", module + ".antt"), encoding="utf-8") as it:
            text = re.sub(r"^--.*\n", "", it.read(), flags=re.M)
        for line in re.sub(r"\n[ \t]+", " ", text).splitlines():
            head = re.match(r"abbrev pub ([\w-]+) : (.*)", line)
            if head:
                found[head[1]] = Definition(head[2], [])
                continue
            name = line.split(" ", 1)[0]
            if name in found and " = " in line:
                pattern, body = line.split(" = ", 1)
                found[name].equations.append((tree(pattern)[1:], tree(body)))
    return found


def tree(text):
    """A term as a list: words, texts in quotes, and lists for what stands in brackets."""
    stack = [[]]
    for token in re.findall(r'"[^"]*"|[()]|[^\s()]+', text):
        if token == "(":
            stack.append([])
        elif token == ")":
            inner = stack.pop()
            stack[-1].append(inner)
        else:
            stack[-1].append(token)
    if len(stack) != 1:
        raise Unknown(text)
    return stack[0]


def bare(term):
    """A term without brackets that hold it alone."""
    while isinstance(term, list) and len(term) == 1:
        term = term[0]
    return term


class Grammar:
    def __init__(self):
        self.defined = definitions()
        self.limits = limits()
        self.ops = {name: self.fields(self.row(name, subject, op)) for name, subject, op in self.names()}

    def names(self):
        """Each op's name, with the subject and the name that it has in the rows."""
        (_, body), = self.equations("op_names")
        named = [term for term in body if isinstance(term, list)]
        if not named or body != [it for term in named for it in (term, "∷")] + ["[]"]:
            raise Unknown("op_names")
        for term in named:
            if len(term) != 5 or (term[0], term[2]) != ("codes", ","):
                raise Unknown(f"op_names: {term}")
            yield term[1].strip('"'), term[3], term[4]

    def row(self, name, subject, op):
        """The fields of an op, as a term."""
        (_, whole), = [it for it in self.equations("row") if it[0][0][0] == subject]
        bodies = [body for pattern, body in self.equations(whole[0]) if pattern == [op]]
        if len(bodies) != 1:
            raise Unknown(f"{whole[0]} {op}, of the op {name}")
        return bodies[0]

    def equations(self, name):
        if name not in self.defined or not self.defined[name].equations:
            raise Unknown(f"{name} is not defined")
        return self.defined[name].equations

    def fields(self, term):
        """The fields that a term of the type `Fields` has, in order."""
        term = bare(term)
        head, rest = (term, []) if isinstance(term, str) else (term[0], term[1:])
        if head == "both" and len(rest) == 2:
            return self.fields(rest[0]) + self.fields(rest[1])
        if head == "made" and len(rest) == 2:
            return self.fields(rest[1])
        if head == "then_value" and len(rest) == 2:
            value = Field(self.text("value_key"), None, None, None, None, self.words(rest[1]))
            return self.fields(rest[0]) + [value]
        if head == "required" and len(rest) == 2:
            return [self.field(rest[0], True, None, rest[1])]
        if head == "optional" and len(rest) == 2:
            return [self.field(rest[0], False, None, rest[1])]
        if head == "defaulted" and len(rest) == 3:
            return [self.field(rest[1], False, rest[0], rest[2])]
        if head in self.defined and "Fields " in self.defined[head].type:
            (pattern, body), = self.equations(head)
            return self.fields(put(body, dict(zip(pattern, rest))))
        raise Unknown(f"fields {term}")

    def field(self, key, needed, default, form):
        form = bare(form)
        head = form if isinstance(form, str) else form[0]
        span = None
        if head == "within":
            span = (self.number(form[1]), self.number(form[2]))
        elif head == "signed":
            most = self.number(form[1])
            span = (-most, most)
        return Field(self.text(key), needed, self.default(default), span, head, self.words(form))

    def default(self, term):
        term = bare(term)
        if term in ("false", "true"):
            return term
        return "0" if term == ["pos", "0"] else None

    def text(self, term):
        """The text of a key."""
        term = bare(term)
        if isinstance(term, list) and len(term) == 2 and term[0] == "codes":
            return term[1].strip('"')
        if isinstance(term, str) and term in self.defined:
            (_, body), = self.equations(term)
            return self.text(body)
        raise Unknown(f"key {term}")

    def words(self, term):
        """The words of the tables of words that a term names, or that a definition behind it names."""
        found, seen, left = [], set(), [term]
        while left:
            term = left.pop()
            if isinstance(term, list):
                left.extend(term)
            elif term in self.defined and term not in seen:
                seen.add(term)
                if self.defined[term].type.startswith("List (List ℕ × "):
                    found += [it.strip('"') for it in flat(self.equations(term)) if it.startswith('"')]
                else:
                    left.extend(body for _, body in self.defined[term].equations)
        if "text_kind" in seen:
            barred = [pattern[0] for pattern, body in self.equations("is_text_kind") if body == ["false"]]
            found = [it for it in found if "kinds." + it.title().replace("_", "") not in barred]
        return found

    def number(self, term):
        """The number that a constant term is."""
        term = bare(term)
        if isinstance(term, list):
            if term[0] == "pos" and len(term) == 2:
                return self.number(term[1])
            if len(term) == 3 and term[1] == "-":
                return self.number(term[0]) - self.number(term[2])
        elif term.isdigit():
            return int(term)
        elif term in self.limits:
            return self.limits[term]
        raise Unknown(f"number {term}")


def put(term, bound):
    """A term with others in place of its variables."""
    if isinstance(term, list):
        return [put(it, bound) for it in term]
    return bound.get(term, term)


def flat(term):
    """The words of a term."""
    if isinstance(term, (list, tuple)):
        return [word for it in term for word in flat(it)]
    return [term]


def limits():
    """The limits that are plain numbers, by name."""
    with open(os.path.join(TOP, "crates", "rd_base", "src", "limits.rt"), encoding="utf-8") as it:
        found = re.findall(r"^pub const (\w+): \w+ = ([\d_]+);", it.read(), flags=re.M)
    return {name: int(value.replace("_", "")) for name, value in found}
