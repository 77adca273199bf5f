"""Reads what contracts are made of: the definitions in specs/, and of src/ the types, traits, views and contracts.

A `Repository` knows each *item*: a definition of a file of specs/ (`abbrev`, `unfoldable`, `record`, `data`, or a name with a type), a
struct, enum or constant of src/, a ghost member of a trait, what an `impl` gives for such a member, and the view of a type that has an
`impl Model`. An item knows its place, its text, the comment above it, and the items that its text names. What binds a name of its own
(a parameter, a pattern, `λ`, `let`, a field above) hides a definition of that name, so the text is read bracket by bracket, with scopes.

A module's header belongs to each definition below it. A name of the kit or of a ported crate is kept as such and not followed.
"""
import os
import re

TOKEN = re.compile(r"\"(?:\\.|[^\"\\])*\"|[()\[\]{}⟦⟧,;]|λ(?=\s)|[^\s()\[\]{}⟦⟧,;\"]+")
OPEN, CLOSE = "([{⟦", ")]}⟧"
WORDS = {"abbrev", "unfoldable", "unfolding", "pub", "record", "data", "where", "module", "use", "open", "let", "in", "elim", "as", "λ", ":", "=",
         "→", "×", "|", "↦", "Type", "_", "tt", "Unit", "absurd", ";", ",", "*"}
PLAIN = re.compile(r"[^\d\W][^\s().,;:{}\[\]]*$|«[^»]+»$")


def tokens_of(text):
    """The tokens of a text in which comments are gone, without its strings."""
    return [token for token in TOKEN.findall(text) if token[0] != '"']


def without_comment(line):
    """A line of specs/ without the comment at its end."""
    return re.sub(r"(^|\s)--(\s.*|-.*)?$", "", line)


def is_name(token):
    return token not in WORDS and PLAIN.match(token) is not None


def partner(tokens, start):
    """The place of the bracket that closes the one at `start`."""
    depth = 0
    for at in range(start, len(tokens)):
        depth += (tokens[at] in OPEN) - (tokens[at] in CLOSE)
        if depth == 0:
            return at
    return len(tokens)


class Reader:
    """The free names of a text: what it names and doesn't bind itself."""

    def __init__(self, is_constructor, bound=()):
        self.is_constructor, self.outer = is_constructor, set(bound)
        self.free, self.fields = [], set()

    def read(self, tokens, bound=()):
        """Reads a term or a type; answers what it binds for what follows it in the same bracket."""
        here, pending, at = set(bound), [], 0
        while at < len(tokens):
            token = tokens[at]
            if token in OPEN:
                end = partner(tokens, at)
                self.bracket(tokens, at, end, here)
                at = end
            elif token == "λ":
                at = self.pattern_until(tokens, at + 1, here, lambda t: t.endswith("."))
            elif token == "let":
                names = set()
                at = self.pattern_until(tokens, at + 1, names, lambda t: t in (":", "=")) - 1
                pending.append(names)
            elif token == "in" and pending:
                here |= pending.pop()
            else:
                self.word(token, here)
            at += 1
        return here

    def bracket(self, tokens, at, end, here):
        """What stands in a bracket: a binder, cases, fields, or a term."""
        inside = tokens[at + 1:end]
        names = self.binder(inside)
        if names is not None and tokens[at] in "({":
            self.read(inside[len(names) + 1:], here)
            here |= set(names)
        elif tokens[at] == "[" and self.top(inside, "↦"):
            for case in self.split(inside, "|"):
                cut = self.first(case, "↦")
                scope = set(here)
                self.pattern_until(case[:cut] + ["."], 0, scope, lambda t: t == ".")
                self.read(case[cut + 1:], scope)
        elif tokens[at] == "{":
            for field in self.split(inside, ";"):
                labelled = len(field) > 1 and field[1] == "=" and (is_name(field[0]) or field[0].isdigit())
                self.read(field[2:] if labelled else field, here)
        else:
            self.read(inside, here)

    @staticmethod
    def binder(inside):
        """The names of a binder `a b : T`, or none."""
        for at, token in enumerate(inside):
            if token == ":":
                return inside[:at] if at else None
            if token != "_" and not (is_name(token) and "." not in token):
                return None
        return None

    def pattern_until(self, tokens, at, names, is_end):
        """Binds the names of a pattern that goes to this end; answers where that is."""
        while at < len(tokens):
            token = tokens[at]
            if token in OPEN:
                end = partner(tokens, at)
                inside = tokens[at + 1:end]
                cut = self.first(inside, ":")
                if token == "{" and len(inside) > 1 and inside[1] == "=":
                    inside, cut = inside[2:], len(inside)
                self.pattern_until(inside[:cut] + ["."], 0, names, lambda t: t == ".")
                self.read(inside[cut + 1:], names)
                at = end
            elif is_end(token):
                if len(token) > 1 and token.endswith("."):
                    names.add(token[:-1])
                return at
            elif "." in token.strip(".") or self.is_constructor(token):
                self.word(token, names)
            elif is_name(token):
                names.add(token)
            at += 1
        return at

    def word(self, token, here):
        head, *fields = token.split(".")
        self.fields.update(field for field in fields if field)
        if head and head not in WORDS and not head[0].isdigit() and head not in here and head not in self.outer:
            self.free.append((head.strip("«»"), fields[0] if fields else ""))

    @staticmethod
    def first(tokens, sought):
        """The first place of this token outside brackets, or the end."""
        depth = 0
        for at, token in enumerate(tokens):
            if depth == 0 and token == sought:
                return at
            depth += (token in OPEN) - (token in CLOSE)
        return len(tokens)

    def top(self, tokens, sought):
        return self.first(tokens, sought) < len(tokens)

    def split(self, tokens, mark):
        parts = []
        while True:
            cut = self.first(tokens, mark)
            parts.append(tokens[:cut])
            if cut >= len(tokens):
                return parts
            tokens = tokens[cut + 1:]


class Item:
    """What a chain lists."""

    def __init__(self, kind, crate, path, name, line, end):
        self.kind, self.crate, self.path, self.name, self.line, self.end = kind, crate, path, name, line, end
        self.comment, self.count, self.headers = "", 0, []
        self.free, self.fields, self.scope, self.below = [], set(), None, []

    def __repr__(self):
        return f"{self.kind} {self.path}:{self.line} {self.name}"


class Scope:
    """What the names of a file stand for: those that it imports, by name, by module, and its own."""

    def __init__(self, crate, path):
        self.crate, self.path = crate, path
        self.imports, self.modules, self.own = {}, {}, {}

    def take(self, text, begin):
        """Takes the imports that begin with this word."""
        for found in re.finditer(begin + r"\s+([\w.-]+?)(?:\.\{([^;]*?)\}|\s+as\s+([\w-]+))?\s*(?:;|\n|$)", text):
            path, names, alias = found.group(1), found.group(2), found.group(3)
            if names is None:
                self.modules[alias or path.split(".")[-1]] = path
                continue
            for name in names.split(","):
                source, _as, shown = (name + " as ").partition(" as ")
                source, shown = source.strip(), shown.replace(" as ", "").strip() or source.strip()
                self.imports[shown] = (path, source)
                for part in shown.split("◌"):
                    if "◌" in shown and part:
                        self.imports[part] = (path, source)


def words_above(lines, first, mark):
    """The comment right above a line."""
    found, at = [], first - 1
    while at >= 0 and lines[at].strip().startswith(mark):
        found.insert(0, lines[at].strip()[len(mark):].strip())
        at -= 1
    return [] if found and found[-1].startswith("----") else [line for line in found if not line.startswith("----")]


class SpecFile:
    """The definitions of a file of specs/."""

    def __init__(self, repository, crate, path):
        self.repository, self.crate, self.path = repository, crate, path
        with open(os.path.join(repository.top, path), encoding="utf-8") as file:
            self.lines = file.read().split("\n")
        self.bare = [without_comment(line) for line in self.lines]
        self.scope = Scope(crate, path)
        self.scope.take("\n".join(self.bare), r"(?:^|(?<=\n))(?:pub )?use")
        self.items, self.constructors = [], set()
        self.read_block(0, len(self.lines), 0, [])

    def read_block(self, at, end, indent, headers):
        """Reads the declarations that stand at this indentation."""
        while at < end:
            stop = self.stop(at, end, indent)
            words = self.bare[at].split()
            if not words or self.indent(at) != indent or words[0] == "use" or words[:2] in (["pub", "use"], ["pub", "mod"]) or words[0] == "mod":
                at = stop if words else at + 1
                continue
            if "module" in words[:2]:
                at = self.read_module(at, end, headers)
                continue
            first = at
            name = self.name_of(words)
            at = stop
            while at < end and (not self.bare[at].strip() or (self.indent(at) == indent and self.goes_on(at, name))):
                at = self.stop(at, end, indent) if self.bare[at].strip() else at + 1
            self.add(first, at, name, headers)

    def indent(self, at):
        return len(self.bare[at]) - len(self.bare[at].lstrip())

    def stop(self, at, end, indent):
        """The line behind a declaration's first line and what is indented below it."""
        at += 1
        while at < end and (not self.bare[at].strip() or self.indent(at) > indent or self.closes(at)):
            at += 1
        while at > 0 and at <= end and not self.bare[at - 1].strip():
            at -= 1
        return at

    def closes(self, at):
        """Whether a line begins with the bracket that closes one of a line before."""
        return self.bare[at].lstrip()[:1] in tuple(CLOSE)

    def goes_on(self, at, name):
        words = tokens_of(self.bare[at])
        return words[0] in (name, "unfolding") and words[1:2] != [":"]

    @staticmethod
    def name_of(words):
        while words[0] in ("abbrev", "unfoldable", "pub", "record", "data"):
            words = words[1:]
        return words[0]

    def read_module(self, at, end, headers):
        """Reads a module: its header belongs to all that stands below it."""
        indent, last = self.indent(at), at
        while self.bare[last].split()[-1] != "where":
            last += 1
        stop = self.stop(last, end, indent)
        below = [self.indent(line) for line in range(last + 1, stop) if self.bare[line].strip()]
        if below:
            self.read_block(last + 1, stop, min(below), headers + [(at, last)])
        return stop

    def add(self, first, at, name, headers):
        end = at
        while not self.bare[end - 1].strip():
            end -= 1
        words = self.bare[first].split()
        if not {"abbrev", "unfoldable", "record", "data"} & set(words[:3]):
            end = self.signature_end(first, end)
            item = Item("statement", self.crate, self.path, name, first + 1, end)
        else:
            item = Item("definition", self.crate, self.path, name, first + 1, end)
        item.comment = " ".join(words_above(self.lines, first, "--"))
        item.count = sum(1 for line in self.bare[first:end] if line.strip())
        item.headers, item.scope = headers, self.scope
        self.scope.own[name] = item
        if "data" in words[:3]:
            for line in self.bare[first + 1:end]:
                for constructor in line.split(" :")[0].split():
                    self.scope.own[constructor] = item
                    self.constructors.add(constructor)
        item.span = (first, end)
        self.items.append(item)

    def signature_end(self, first, end):
        """The line behind a signature: no clause of a name that is neither `abbrev` nor `unfoldable` can be seen through."""
        at = first + 1
        while at < end and self.indent(at) > self.indent(first):
            at += 1
        return at

    def is_constructor(self, name):
        """Whether a name in a pattern is a constructor, and so no name that the pattern binds."""
        if name in self.constructors:
            return True
        path, source = self.scope.imports.get(name, ("", ""))
        if path.endswith(".TheVariants"):
            return True
        file = self.repository.spec_of(path)
        if file is not None:
            return file.is_constructor(source)
        return bool(path) and (source[:1].isupper() or "◌" in source or source in ("zero", "suc", "true", "false", "inl", "inr", "refl"))

    def read(self, item):
        """Finds the names of an item's text."""
        reader = Reader(self.is_constructor)
        bound = set()
        for first, last in item.headers:
            tokens = tokens_of("\n".join(self.bare[first:last + 1]))
            bound |= reader.read(tokens[2:-1], bound)
        first, end = item.span
        chunks = self.chunks(first, end)
        words = chunks[0].split()
        if "record" in words[:3] or "data" in words[:3]:
            self.read_fields(reader, first, end, bound, item.name)
        else:
            for chunk in chunks:
                self.read_clause(reader, chunk, item.name, bound)
        item.free, item.fields = reader.free, reader.fields

    def read_header(self, reader, headers, text):
        """Reads those parameters of module headers that a text uses, or that the types of those use; answers all that are bound."""
        tokens = [token for first, last in headers for token in tokens_of("\n".join(self.bare[first:last + 1]))[2:-1]]
        bound = Reader(self.is_constructor).read(tokens)
        groups, at = [], 0
        while at < len(tokens):
            end = partner(tokens, at)
            groups.append(tokens[at:end + 1])
            at = end + 1
        used = {token.split(".")[0] for token in tokens_of(text)}
        for group in reversed(groups):
            names = group[1:reader.first(group[1:-1], ":") + 1]
            if used & set(names):
                used |= set(group)
                reader.read(group, bound)
        return bound

    def case(self, name, head):
        """The clause of a definition whose first pattern begins with this constructor: as an item, and its lines."""
        item = self.scope.own.get(name)
        for chunk in self.chunks(*item.span) if item else []:
            if tokens_of(chunk)[:3] == [name, "(", head]:
                reader = Reader(self.is_constructor)
                bound = self.read_header(reader, item.headers, chunk)
                self.read_clause(reader, chunk, name, bound)
                found = Item("clause", self.crate, self.path, "", 0, 0)
                found.free, found.fields, found.scope = reader.free, reader.fields, self.scope
                return found, chunk.split("\n")
        raise SystemExit(f"definitions: {name} of {self.path} has no case {head}")

    def chunks(self, first, end):
        """The signature and the clauses of a declaration, each as one text."""
        chunks, indent = [], self.indent(first)
        for at in range(first, end):
            if self.bare[at].strip() and self.indent(at) == indent and not self.closes(at):
                chunks.append(self.bare[at])
            elif chunks:
                chunks[-1] += "\n" + self.bare[at]
        return chunks

    @staticmethod
    def read_clause(reader, chunk, name, bound):
        """Reads a signature or a clause `name pattern .. = term`, with what stands below its `where`."""
        local = set(bound) | set(re.findall(r"^\s+([^\s():]+) :", chunk.partition(" where")[2], re.M))
        tokens = tokens_of(chunk)
        while tokens and tokens[0] in ("abbrev", "unfoldable", "pub"):
            tokens = tokens[1:]
        if tokens[0] == "unfolding":
            return
        if tokens[1:2] == [":"]:
            reader.read(tokens[2:], local)
            return
        cut = reader.first(tokens, "=")
        scope = set(local)
        reader.pattern_until(tokens[1:cut] + ["."], 0, scope, lambda token: token == ".")
        reader.read(tokens[cut + 1:], scope)

    def read_fields(self, reader, first, end, bound, name):
        """Reads a record or a data type: the header binds its parameters, and each field its name."""
        last = first
        while last < end - 1 and self.bare[last].split()[-1:] != ["where"]:
            last += 1
        header = tokens_of("\n".join(self.bare[first:last + 1]))
        header = header[header.index(name) + 1:]
        scope = reader.read([token for token in header if token != "where"], bound)
        rest = [at for at in range(last + 1, end) if self.bare[at].strip()]
        if not rest:
            return
        indent, fields = min(self.indent(at) for at in rest), []
        for at in rest:
            if self.indent(at) == indent and not self.closes(at):
                fields.append(self.bare[at])
            else:
                fields[-1] += "\n" + self.bare[at]
        for field in fields:
            tokens = [token for token in tokens_of(field) if token != "pub"]
            if tokens[0] == "open":
                continue
            cut = reader.first(tokens, ":")
            reader.read(tokens[cut + 1:], scope)
            scope |= set(tokens[:cut])


def masked(text):
    """Code without comments, strings and characters, at the same places."""
    def blank(found):
        return re.sub(r"[^\n]", " ", found.group(0))
    return re.sub(r"//[^\n]*|/\*.*?\*/|\"(?:\\.|[^\"\\])*\"|'(?:\\[^']+|[^'\\\s])'", blank, text, flags=re.S)


def block_end(text, at):
    """The place behind the bracket that closes the one at `at`."""
    depth = 0
    for place in range(at, len(text)):
        depth += (text[place] in "([{") - (text[place] in ")]}")
        if depth == 0:
            return place + 1
    return len(text)


def item_end(text, at):
    """The place behind an item: its first `;` outside brackets, or the end of its block."""
    while at < len(text):
        if text[at] == ";":
            return at + 1
        if text[at] in "([{":
            closed = block_end(text, at)
            if text[at] == "{":
                return closed
            at = closed
        else:
            at += 1
    return at


class CodeFile:
    """The types, traits, views, impls and contracts of a file of src/."""

    def __init__(self, repository, crate, path):
        self.repository, self.crate, self.path = repository, crate, path
        with open(os.path.join(repository.top, path), encoding="utf-8") as file:
            self.text = file.read()
        self.lines, self.code = self.text.split("\n"), masked(self.text)
        self.scope = Scope(crate, path)
        self.scope.take(self.code, r"ghost use")
        self.uses = {}
        for found in re.finditer(r"^\s*(?:pub(?:\([a-z]+\))? )?use ([^;]+);", self.code, re.M):
            self.flatten(re.sub(r"\s+", "", found.group(1).replace(" as ", "@")), "")
        self.types, self.traits, self.views, self.impls, self.constants = {}, {}, {}, [], {}
        self.read_items()

    def flatten(self, text, before):
        """Takes a `use` apart: the name in this file, and its path."""
        head, brace, rest = text.partition("{")
        if not brace:
            path, _at, name = head.partition("@")
            self.uses[name or path.split("::")[-1]] = (before + path).split("::")
            return
        depth, part = 0, ""
        for sign in rest[:-1] + ",":
            depth += (sign == "{") - (sign == "}")
            if sign == "," and depth == 0:
                if part:
                    self.flatten(part, before + head)
                part = ""
            else:
                part += sign

    def line_of(self, at):
        return self.text.count("\n", 0, at) + 1

    def item(self, kind, name, start, end):
        """An item of this stretch of code; comments, empty lines and attributes aren't counted."""
        item = Item(kind, self.crate, self.path, name, self.line_of(start), self.line_of(end - 1))
        above, at = [], item.line - 1
        while at > 0 and self.lines[at - 1].strip().startswith(("#[", "///")):
            at -= 1
            if self.lines[at].strip().startswith("///"):
                above.insert(0, self.lines[at].strip()[3:].strip())
        item.comment = " ".join(above[:above.index("")] if "" in above else above)
        lines = self.code[start:end].split("\n")
        item.count = sum(1 for line in lines if line.strip() and not line.strip().startswith("#["))
        item.scope, item.span = self, (start, end)
        return item

    def read_items(self):
        head = r"^[ ]*(?:pub(?:\([a-z]+\))? )?"
        for found in re.finditer(head + r"(struct|enum|type) (\w+)", self.code, re.M):
            if found.group(1) == "type" and self.code[found.start()] == " ":
                continue
            start = found.end() - len(found.group(0).lstrip())
            self.types[found.group(2)] = self.item("type", found.group(2), start, item_end(self.code, found.end()))
        for found in re.finditer(head + r"const (\w+)\s*:", self.code, re.M):
            self.constants[found.group(1)] = self.item("constant", found.group(1), found.end() - len(found.group(0).lstrip()),
                                                      item_end(self.code, found.end()))
        for found in re.finditer(head + r"trait (\w+)", self.code, re.M):
            end = item_end(self.code, found.end())
            self.traits[found.group(1)] = self.members("trait", found.group(1), found.end(), end, ":")
            self.traits[found.group(1)][""] = self.item("trait", found.group(1), found.end() - len(found.group(0).lstrip()), end)
        for found in re.finditer(r"^impl\b", self.code, re.M):
            self.read_impl(found.start())

    def members(self, kind, name, start, end, sign):
        """The ghost members in a block, by name."""
        found = {}
        for member in re.finditer(r"ghost (\w+)\s*" + sign + r"\s*\{", self.code[start:end]):
            at = start + member.end() - 1
            found[member.group(1)] = self.item(kind, f"{name}.{member.group(1)}", start + member.start(), block_end(self.code, at))
        return found

    def read_impl(self, start):
        """Reads an impl of a trait: a view where the trait is `Model`, else what it gives for each ghost member."""
        brace = self.code.index("{", start)
        head = re.sub(r"\s+", " ", self.code[start:brace].split(" where")[0])
        found = re.match(r"impl\s*(?:<.*?>)? ?(\w+)(?:<.*>)? for (\w+)", self.without_bounds(head))
        end = block_end(self.code, brace)
        if not found:
            return
        scope = Scope(self.crate, self.path)
        scope.take(self.code[brace:end], "ghost use")
        members = self.members("impl", f"{found.group(1)} for {found.group(2)}", brace, end, "=")
        bounds = re.findall(r"[A-Z]\w*", head[4:len(head) - len(self.without_bounds(head)) + 4])
        for member in members.values():
            member.inner, member.bounds = scope, bounds
        if found.group(1) == "Model":
            if "Value" in members:
                self.views[found.group(2)] = self.view(found.group(2), members)
        else:
            self.impls.append((found.group(1), found.group(2), members))

    @staticmethod
    def without_bounds(head):
        """The head of an impl without its own parameters, which may hold brackets in brackets."""
        if not head.startswith("impl<"):
            return head
        depth = 0
        for at in range(4, len(head)):
            depth += (head[at] == "<") - (head[at] == ">" and head[at - 1] != "-")
            if depth == 0:
                return "impl" + head[at + 1:]
        return head

    def view(self, name, members):
        """How contracts see a type: its `Value`, and the `view` that makes it of the fields."""
        first, last = members["Value"], members.get("view", members["Value"])
        item = self.item("view", name, first.span[0], first.span[1])
        item.inner, item.count = first.inner, first.count + (last.count if last is not first else 0)
        item.end, item.spans = last.end, [first.span] + ([last.span] if last is not first else [])
        item.comment = self.types[name].comment if name in self.types else ""
        return item

    def read(self, item):
        """Finds the names of an item's text: those of clauses in braces, and those of code."""
        reader = Reader(lambda name: False)
        for start, end in getattr(item, "spans", [item.span]):
            text = self.code[start:end]
            if item.kind in ("view", "impl", "trait"):
                reader.read(tokens_of(text[text.index("{") + 1:text.rindex("}")]))
            else:
                self.read_type(reader, text)
        item.free, item.fields = reader.free, reader.fields

    @staticmethod
    def read_type(reader, text):
        """The names of a struct or an enum: the types of its fields, and the facts that each value has."""
        for found in re.finditer(r"ghost \w+\s*:\s*\{", text):
            inside = text[found.end():block_end(text, found.end() - 1) - 1]
            reader.read(tokens_of(inside), set(re.findall(r"(\w+)\s*:(?!:)", text)))
        plain = re.sub(r"ghost \w+\s*:\s*\{", "{", text)
        head = re.match(r"(?:pub(?:\([a-z]+\))? )?(?:struct|enum|type|const) \w+", plain)
        body = plain[head.end():]
        own = set(re.findall(r"\b([A-Z]\w*)\s*[:,>=]", body[:body.find(">") + 1])) if body.startswith("<") else set()
        for name in re.findall(r"(?<![\w.])([A-Z]\w*)", re.sub(r"^<[^{(;]*?>(?=\s*[{(;=])", "", body, flags=re.S)):
            if name not in own:
                reader.free.append((name, ""))

    def contract(self, name):
        """The contract of the first function of this name."""
        found = re.search(r"\bfn " + name + r"\b", self.code)
        if not found:
            raise SystemExit(f"definitions: {self.path} has no function {name}")
        return self.contract_at(name, found.start())

    def contract_at(self, name, start):
        """The contract of the function of this name whose `fn` stands here."""
        end = start + len(f"fn {name}")
        at = self.code.index("(", end)
        while self.code[end:at].count("<") > self.code[end:at].replace("->", "").count(">"):
            at = self.code.index("(", at + 1)
        opened, closed = at, block_end(self.code, at)
        at, clauses = closed, []
        head = re.compile(r"\s*(requires|ensures)\*?\s*(\w*)\s*\{")
        while self.code[at] not in "{;":
            clause = head.match(self.code, at)
            if clause:
                at = block_end(self.code, clause.end() - 1)
                clauses.append((clause.group(1), clause.group(2), self.code[clause.end():at - 1], (clause.start(1), at)))
            else:
                at += 1
        end = clauses[0][3][0] if clauses else at
        parts = [self.code[start:opened], self.code[opened + 1:closed - 1], *self.code[closed:end].partition("where")[::2]]
        return Contract(self, name, start, parts, clauses, at)

    def blocks(self):
        """The impls and traits at the edge of the file, each with its word, what it is of, and its stretch of code."""
        for found in re.finditer(r"^(?:pub(?:\([a-z]+\))? )?(impl|trait)\b", self.code, re.M):
            brace = self.code.index("{", found.end())
            head = self.without_bounds(re.sub(r"\s+", " ", self.code[found.start(1):brace].split(" where")[0]))
            name = re.match(r"impl\s*(?:([\w:]+)(?:<.*>)? for )?(\w+)|trait (\w+)", head)
            if name:
                yield Block(name.group(3) or name.group(2), name.group(1) if found.group(1) == "impl" else name.group(3),
                            found.group(1), brace, block_end(self.code, brace))

    def functions(self):
        """The functions of the file in their order, without those inside others."""
        blocks = list(self.blocks())
        for found in re.finditer(r"^([ ]*)((?:pub(?:\([a-z]+\))? )?)(?:const )?(fn) (\w+)", self.code, re.M):
            start = found.start(3)
            block = next((block for block in blocks if block.start < start < block.end), None)
            if len(found.group(1)) <= (4 if block else 0):
                yield Function(self, block, found.group(4), start, found.group(2).strip())


class Block:
    """An impl or a trait: its type or its own name, the trait (none for an impl of a type alone), its word and its stretch of code."""

    def __init__(self, name, trait, word, start, end):
        self.name, self.trait, self.word, self.start, self.end = name, trait, word, start, end


class Function:
    """A function of a file of src/, as `Type::name`."""

    def __init__(self, file, block, name, start, shown):
        self.file, self.block, self.start = file, block, start
        self.name = f"{block.name}::{name}" if block else name
        self.line = file.line_of(start)
        self.is_marked = shown == "pub" or block is not None and block.word == "trait"
        self.is_shared = self.is_marked or shown.startswith("pub")
        self.contract = file.contract_at(name, start)

    def is_public(self, names, modules):
        """Whether it can be called by what a crate hands out: it is marked so, or an impl of a trait gives it clauses of its own."""
        shown = (self.block.name if self.block else self.name) in names
        shown = shown or os.path.basename(self.file.path).removesuffix(".rt") in modules
        given = self.block is not None and self.block.word == "impl" and self.block.trait is not None
        return shown and (self.is_marked or given and bool(self.contract.clauses))

    def ensures(self):
        """Whether it promises something."""
        return any(clause[0] == "ensures" for clause in self.contract.clauses)

    def end(self):
        """The line in which its body ends."""
        return self.file.line_of(item_end(self.file.code, self.contract.body) - 1)

    def words(self):
        """What its comment says first."""
        return self.file.item("function", self.name, self.start, self.start + 1).comment

    def may_wait(self):
        """Whether the bounds let it wait, or run for ever."""
        return re.search(r"\b(Wait|Net)\b", self.contract.generics + self.contract.bounds) is not None


class Contract:
    """A function's contract: its generics, parameters, result and bounds; its clauses, each with keyword, name, text inside and place;
    and where its body begins."""

    def __init__(self, file, name, start, parts, clauses, body):
        self.file, self.name, self.start, self.clauses, self.body = file, name, start, clauses, body
        self.generics, self.parameters, self.result, self.bounds = parts
        self.line = file.line_of(start)

    def item(self, clause):
        """A clause as an item: what its text names, with the types of the parameters that it speaks of."""
        item = Item("clause", self.file.crate, self.file.path, "", 0, 0)
        reader = Reader(lambda name: False)
        reader.read(tokens_of(clause[2]))
        names = {name for name, _field in reader.free}
        types = [self.result] if "result" in names else []
        for parameter in re.split(r",\s*(?=\w+: )|(?<=self),", self.parameters):
            name, _colon, kind = parameter.strip().partition(": ")
            types += [kind] if name in names else []
        reader.free += [(name, "") for kind in types for name in re.findall(r"[A-Z]\w*", kind)]
        item.free, item.fields, item.scope = reader.free, reader.fields, self.file
        item.bounds = re.findall(r"[A-Z]\w*", self.generics + self.bounds)
        return item

    def text(self, clauses):
        """These clauses as they stand in the file."""
        lines = []
        for _word, _name, _inside, (start, end) in clauses:
            first, last = self.file.line_of(start), self.file.line_of(end - 1)
            lines += self.file.lines[first - 1:last]
        return lines


class Repository:
    """All crates of crates.txt, with what their files define."""

    def __init__(self, top):
        self.top, self.below = top, {}
        with open(os.path.join(top, "crates.txt"), encoding="utf-8") as file:
            for line in file:
                name, colon, below = line.partition("#")[0].partition(":")
                if colon:
                    self.below[name.split()[0]] = below.split()
        self.files, self.was_read = {}, set()

    def must(self, path):
        """A file that there is."""
        file = self.file(path)
        if file is None:
            raise SystemExit(f"definitions: there is no {path}")
        return file

    def all_specs(self):
        """All files of definitions."""
        for crate in self.below:
            folder = os.path.join("crates", crate, "specs")
            for name in sorted(os.listdir(os.path.join(self.top, folder))) if os.path.isdir(os.path.join(self.top, folder)) else []:
                if name.endswith(".antt"):
                    yield self.file(os.path.join(folder, name))

    def file(self, path):
        """A file of specs/ or of src/, read once, or none where there is no such file."""
        if path not in self.files:
            kind = SpecFile if path.endswith(".antt") else CodeFile
            there = os.path.isfile(os.path.join(self.top, path))
            self.files[path] = kind(self, path.split(os.sep)[1], path) if there else None
        return self.files[path]

    def spec_of(self, path):
        """The file of specs/ that a path of an import names, or none."""
        parts = path.split(".")
        if parts[0] != "Rattle" or len(parts) < 4 or parts[2] != "specs" or parts[3] == "declared":
            return None
        return self.file(os.path.join("crates", parts[1], "specs", *parts[3:]) + ".antt")

    def code_of(self, crate, modules):
        """The file of a module of src/, or none."""
        for path in ([*modules[:-1], modules[-1] + ".rt"], [*modules, "mod.rt"]) if modules else (["lib.rt"], ["main.rt"]):
            file = self.file(os.path.join("crates", crate, "src", *path))
            if file is not None:
                return file
        return None

    def read(self, item):
        """Reads an item's text, once."""
        if id(item) not in self.was_read:
            self.was_read.add(id(item))
            self.file(item.path).read(item)

    def in_spec(self, path, name):
        """What a name stands for that is imported from this path: an item, or a name of the kit, or none."""
        parts = path.split(".")
        if parts[0] == "Rattle" and parts[1] in self.below and "declared" in parts:
            return self.declared(parts[1], parts[parts.index("declared") + 1:], name)
        if parts[0] == "Rattle" and parts[1] in self.below and len(parts) > 2 and parts[2] == "proofs":
            return f"{path}.{name}"
        file = self.spec_of(path)
        if file is None:
            return None if parts[0] == "Rattle" and parts[1] in self.below else f"{path}.{name}"
        return self.in_file(file.scope, name, "")

    def in_file(self, scope, name, field):
        """What a free name of a file of specs/ stands for."""
        if name in scope.own:
            return scope.own[name]
        if name in scope.imports:
            return self.in_spec(*scope.imports[name])
        if name in scope.modules and field:
            return self.in_spec(scope.modules[name], field)
        return None

    def declared(self, crate, parts, name):
        """What the tool declares of src/: a type, its variants or its fields inside, a trait's ghost members, a constant."""
        if parts[-1] == "TheConstants":
            file = self.code_of(crate, parts[:-1])
            return file.constants.get(name) if file else None
        inside = parts[-1] == "TheInside"
        if parts[-1] in ("TheInside", "TheVariants"):
            parts = parts[:-1]
        file = self.code_of(crate, parts[:-1])
        if file is None:
            return None
        if name == "Ghosts":
            return file.traits.get(parts[-1], {}).get("")
        if not inside and parts[-1] in file.views:
            return file.views[parts[-1]]
        return file.types.get(parts[-1])

    def in_code(self, file, name, seen=()):
        """What a free name of a file of src/ stands for: a type, as its view where it has one, or a trait."""
        for found in (file.views, file.types, file.constants):
            if name in found:
                return found[name]
        if name in file.traits:
            return file.traits[name][""]
        if name not in file.uses or (file.path, name) in seen:
            return None
        path = file.uses[name]
        crate, modules = (path[0], []) if path[0] in self.below else (file.crate, path[:-1])
        if path[0] == "crate":
            modules = path[1:-1]
        elif path[0] in self.below:
            modules = path[1:-1]
        elif path[0] in ("super", "self", "std"):
            return None
        target = self.code_of(crate, modules)
        return self.in_code(target, path[-1], (*seen, (file.path, name))) if target else None

    def traits_above(self, trait):
        """A trait with those that it asks for, and those again."""
        found, work = {}, [trait]
        while work:
            trait = work.pop()
            if trait.name in found:
                continue
            file = self.file(trait.path)
            found[trait.name] = file.traits[trait.name]
            head = file.code[trait.span[0]:file.code.index("{", trait.span[0])].partition(trait.name)[2]
            for name in re.findall(r"[A-Z]\w*", head):
                above = self.in_code(file, name)
                if isinstance(above, Item) and above.kind == "trait":
                    work.append(above)
        return found.values()

    def impl_of(self, trait, crate, name):
        """What a crate's type gives for the ghost members of a trait."""
        folder = os.path.join("crates", crate, "src")
        for path in sorted(os.listdir(os.path.join(self.top, folder))):
            for of, by, members in self.file(os.path.join(folder, path)).impls if path.endswith(".rt") else []:
                if (of, by) == (trait, name):
                    return members
        raise SystemExit(f"definitions: {crate} has no impl of {trait} for {name}")

    def stands_for(self, item, name, field):
        """What a free name of an item's text stands for."""
        if isinstance(item.scope, Scope):
            return self.in_file(item.scope, name, field)
        for scope in (getattr(item, "inner", None), item.scope.scope):
            found = self.in_file(scope, name, field) if scope else None
            if found is not None:
                return found
        return self.in_code(item.scope, name)

    def page_of(self, crate):
        """The page of a crate: the paragraphs of the comment at the head of its root file."""
        file = self.root_of(crate)
        lines, in_code = [], False
        for line in file.lines if file else []:
            if not line.startswith("//!"):
                break
            lines.append(line[3:].strip())
        return [" ".join(part.split("\n")) for part in "\n".join(lines).split("\n\n")]

    def root_of(self, crate):
        """The root file of a crate."""
        return next((self.file(os.path.join("crates", crate, "src", name)) for name in ("lib.rt", "main.rt")
                     if os.path.isfile(os.path.join(self.top, "crates", crate, "src", name))), None)

    def sources_of(self, crate):
        """The files of a crate's src/ but those of its tests, by name."""
        top = os.path.join(self.top, "crates", crate, "src")
        for at, folders, names in sorted(os.walk(top)):
            folders.sort()
            for name in sorted(names):
                path = os.path.relpath(os.path.join(at, name), self.top)
                if name.endswith(".rt") and "/tests" not in path:
                    yield self.file(path)

    def public_names(self, crate):
        """What a crate hands out: the names that its root file uses publicly, and the modules that it makes public; of a program nothing."""
        root = self.root_of(crate)
        if root is None or root.path.endswith("main.rt"):
            return set(), set()
        names, modules = set(), set(re.findall(r"^pub mod (\w+);", root.code, re.M))
        for found in re.finditer(r"^pub use ([^;]+);", root.code, re.M):
            names |= set(re.findall(r"\w+", found.group(1)))
        return names | set(re.findall(r"^pub (?:struct|enum|trait|type|(?:const )?fn) (\w+)", root.code, re.M)), modules

    def public_functions(self, crate):
        """The functions that another crate can call, and those of public traits, in the order of files and lines. Where these ensure nothing,
        as in a program, those that promise something to the other files of the crate."""
        names, modules = self.public_names(crate)
        functions = [function for file in self.sources_of(crate) for function in file.functions()]
        found = [function for function in functions if function.is_public(names, modules)]
        if any(function.ensures() for function in found):
            return found
        return [function for function in functions if function in found or function.is_shared and function.contract.clauses]

    def defined_by(self, item):
        """The definitions of specs/ that an item's text names, each once, in their order."""
        found = {}
        if item.kind != "clause":
            self.read(item)
        for name, field in item.free:
            what = self.stands_for(item, name, field)
            if isinstance(what, Item) and what.kind in ("definition", "statement"):
                found[id(what)] = what
        return list(found.values())
