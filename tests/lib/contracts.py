"""The files of src/: their types, models and traits, and what the contracts of their functions say."""

import dataclasses

from lib.definitions import read_import, string_end

OPENS, CLOSES = "([{", ")]}"
TYPES = ("struct", "enum", "type")


@dataclasses.dataclass
class Word:
    """A word of a source, with its place."""

    text: str
    start: int
    end: int


@dataclasses.dataclass
class Term:
    """A term of a contract, and the block around it."""

    text: str
    block: object


@dataclasses.dataclass
class Clause:
    kind: str
    label: str
    term: Term


@dataclasses.dataclass
class Function:
    """A function: `owner` is the type or the trait whose it is, `bounds` has the traits of its type parameters."""

    name: str
    owner: str
    is_public: bool
    line: int
    parameters: list
    bounds: dict
    mentions: list
    clauses: list

    @property
    def path(self):
        return f"{self.owner}::{self.name}" if self.owner else self.name


@dataclasses.dataclass
class Type:
    """A struct, an enum, a name for a type, a trait or a constant: the names in it, and its fields with theirs."""

    name: str
    kind: str
    is_public: bool
    line: int
    size: int
    mentions: list
    fields: dict


@dataclasses.dataclass
class Block:
    """An `impl` or a trait: its own lines `ghost use`, and its ghost members by their names, each with its line, its lines and its term. A trait
    is its own owner."""

    trait: str
    owner: str
    bounds: dict
    imports: list = dataclasses.field(default_factory=list)
    members: dict = dataclasses.field(default_factory=dict)


def words(text):
    """The words of a source without comments, strings and characters."""
    found, at = [], 0
    while at < len(text):
        c = text[at]
        if c.isspace():
            at += 1
        elif text.startswith("//", at):
            at = line_end(text, at)
        elif c == '"':
            at = string_end(text, at)
        elif c == "'":
            at = character_end(text, at)
        elif c.isalnum() or c == "_":
            end = at
            while end < len(text) and (text[end].isalnum() or text[end] == "_"):
                end += 1
            found.append(Word(text[at:end], at, end))
            at = end
        else:
            end = at + 2 if text[at:at + 2] in ("->", "=>", "::") else at + 1
            found.append(Word(text[at:end], at, end))
            at = end
    return found


def line_end(text, at):
    end = text.find("\n", at)
    return len(text) if end < 0 else end


def character_end(text, at):
    """The end of a character; of a lifetime, or of a prime in a ghost term, the place behind the mark."""
    if text.startswith("'\\", at):
        return text.find("'", at + 3) + 1
    return at + 3 if text[at + 2:at + 3] == "'" else at + 1


def code_lines(text):
    """How many lines have something on them that is no comment."""
    return sum(1 for line in text.split("\n") if line.strip() and not line.strip().startswith("//"))


class SourceFile:
    """A file of src/."""

    def __init__(self, text):
        self.text = text
        self.words = words(text)
        self.uses, self.imports, self.types, self.blocks, self.functions, self.modules = {}, [], {}, [], [], {}
        self.read_items(0, len(self.words), None)

    def line_of(self, at):
        return self.text.count("\n", 0, self.words[at].start) + 1

    def close_of(self, at):
        """The place of the bracket that closes the one at this place."""
        depth = 0
        for i in range(at, len(self.words)):
            depth += (self.words[i].text in OPENS) - (self.words[i].text in CLOSES)
            if depth == 0:
                return i
        return len(self.words) - 1

    def next_of(self, at, marks):
        """The first place from this one on with one of these marks, outside of brackets."""
        while at < len(self.words) and self.words[at].text not in marks:
            at = self.close_of(at) + 1 if self.words[at].text in OPENS else at + 1
        return at

    def slice(self, start, end):
        """The text between two words."""
        return self.text[self.words[start].end:self.words[end].start]

    def read_items(self, at, end, block):
        """Reads the items between two places: of the file, of a module or of a block."""
        is_public = False
        while at < end:
            word = self.words[at].text
            if word == "#":
                at = self.close_of(self.next_of(at + 1, "[")) + 1
                continue
            if word == "pub":
                is_public = self.words[at + 1].text != "("
                at = at + 1 if is_public else self.close_of(at + 1) + 1
                continue
            at = self.read_item(word, at, is_public, block)
            if word not in ("unsafe", "final", "const"):
                is_public = False

    def read_item(self, word, at, is_public, block):
        """Reads the item at this place. The place behind it."""
        if word == "use":
            return self.read_use(at, is_public)
        if word == "ghost":
            return self.read_ghost(at, block)
        if word == "fn":
            return self.read_function(at, is_public, block)
        if word in TYPES and block is None:
            return self.read_type(at, word, is_public)
        if word in ("impl", "trait"):
            return self.read_block(at, word)
        if word == "mod":
            self.modules[self.words[at + 1].text] = is_public
            return self.next_of(at + 1, "{;") + 1 if self.words[at + 2].text == ";" else self.close_of(at + 2) + 1
        if word == "macro_rules":
            return self.close_of(self.next_of(at, "{")) + 1
        if word in ("const", "static") and self.words[at + 1].text not in ("fn", "unsafe"):
            return self.read_constant(at, is_public)
        return at + 1

    def read_constant(self, at, is_public):
        name, end = self.words[at + 1].text, self.next_of(at, ";")
        size = code_lines(self.text[self.words[at].start:self.words[end].end])
        self.types[name] = Type(name, "const", is_public, self.line_of(at), size, [], {})
        return end + 1

    def read_use(self, at, is_public):
        end = self.next_of(at, ";")
        path = []
        for i in range(at + 1, end):
            text = self.words[i].text
            if text == "{":
                self.read_names(path, i, self.close_of(i), is_public)
                return end + 1
            if text == "as":
                self.uses[self.words[i + 1].text] = (tuple(path), is_public)
                return end + 1
            if text != "::":
                path.append(text)
        self.uses[path[-1]] = (tuple(path), is_public)
        return end + 1

    def read_names(self, path, start, end, is_public):
        at = start + 1
        while at < end:
            upto = next((i for i in range(at, end) if self.words[i].text == ","), end)
            texts = [self.words[i].text for i in range(at, upto)]
            if texts and texts[0] == "self":
                texts = [path[-1]] + texts[1:]
                self.uses[texts[-1]] = (tuple(path), is_public)
            elif texts:
                own = texts[:texts.index("as")] if "as" in texts else texts
                self.uses[texts[-1]] = (tuple(path + [it for it in own if it != "::"]), is_public)
            at = upto + 1

    def read_ghost(self, at, block):
        """`ghost use ..;`, or a member of a block: `ghost name: {..};`, `ghost name = {..};`."""
        if self.words[at + 1].text == "use":
            end = self.next_of(at, ";")
            imports = self.imports if block is None else block.imports
            imports.append(read_import(" ".join(self.text[self.words[at + 1].start:self.words[end].start].split())))
            return end + 1
        opening = self.next_of(at, "{;")
        end = self.next_of(at, ";")
        if block is not None and self.words[opening].text == "{":
            term = Term(self.slice(opening, self.close_of(opening)), block)
            size = code_lines(self.text[self.words[at].start:self.words[end].end])
            block.members[self.words[at + 1].text] = (self.line_of(at), size, term)
        return end + 1

    def read_type(self, at, word, is_public):
        name = self.words[at + 1].text
        body = self.next_of(at, "{;=") if word != "struct" else self.next_of(at, "{;(")
        is_block = self.words[body].text == "{"
        end = self.close_of(body) if is_block else self.next_of(body, ";")
        text = self.text[self.words[at].start:self.words[end].end]
        it = Type(name, word, is_public, self.line_of(at), code_lines(text), [], {})
        if is_block:
            self.read_parts(it, body + 1, end)
        else:
            it.mentions += self.type_names(at + 2, end)
        self.types[name] = it
        return end + 1

    def read_parts(self, it, at, end):
        """The fields of a struct, or the variants of an enum. A variant's own name is no type."""
        while at < end:
            upto = min(self.comma_of(at, end), end)
            start = at
            while start < upto and self.words[start].text in ("pub", "#", "(", "["):
                start = self.close_of(start) + 1 if self.words[start].text in OPENS else start + 1
            if start < upto and self.words[start].text != "ghost":
                it.fields[self.words[start].text] = self.type_names(start + 1, upto)
                it.mentions += self.type_names(start + 1, upto)
            at = upto + 1

    def comma_of(self, at, end):
        """The next comma outside of brackets, those of types included."""
        depth = 0
        while at < end:
            text = self.words[at].text
            depth += (text in OPENS or text == "<") - (text in CLOSES or text == ">")
            if text == "," and depth == 0:
                return at
            at += 1
        return end

    def type_names(self, start, end):
        """The names of types between two places, those behind `::` with the name before it."""
        names, at = [], start
        while at < end:
            text = self.words[at].text
            if text == "ghost":
                at = self.close_of(self.next_of(at, "{"))
            elif text[0].isupper() and (at == 0 or self.words[at - 1].text != "::"):
                names.append((text,))
            elif text[0].isupper():
                names.append((self.words[at - 2].text, text))
            at += 1
        return names

    def read_block(self, at, word):
        """`impl Trait for Type {..}`, `impl Type {..}` or `trait Trait {..}`."""
        opening = self.next_of(at, "{")
        close = self.close_of(opening)
        bounds, start = self.read_bounds(at + 1) if word == "impl" else ({}, at + 1)
        if word == "trait":
            bounds, _ = self.read_bounds(at + 2)
        heads = self.outer_names(start, opening)
        if word == "trait":
            block = Block(heads[0], heads[0], {**bounds, "Self": [heads[0]]})
        elif "for" in heads:
            block = Block(heads[heads.index("for") - 1], heads[-1], bounds)
        else:
            block = Block(None, heads[-1], bounds)
        self.blocks.append(block)
        if word == "trait":
            size = code_lines(self.text[self.words[at].start:self.words[close].end])
            self.types[heads[0]] = Type(heads[0], "trait", self.words[at - 1].text == "pub", self.line_of(at), size, [], {})
        self.read_items(opening + 1, close, block)
        return close + 1

    def outer_names(self, start, end):
        """The names between two places outside of `<..>`: of a path the last one. A trait's bounds end them."""
        names, depth, at = [], 0, start
        while at < end:
            text = self.words[at].text
            depth += (text == "<") - (text == ">")
            if depth == 0 and text == ":":
                break
            if depth == 0 and (text[0].isalpha() or text[0] == "_") and text not in ("mut", "dyn", "where"):
                if at > start and self.words[at - 1].text == "::":
                    names[-1] = text
                else:
                    names.append(text)
            at += 1
        return names

    def read_bounds(self, at):
        """The type parameters `<T: Trait ..>` at this place with their traits, and the place behind them."""
        bounds, depth = {}, 0
        if at >= len(self.words) or self.words[at].text != "<":
            return bounds, at
        name, is_bound = None, False
        while True:
            text = self.words[at].text
            depth += (text == "<") - (text == ">")
            if depth == 0:
                return bounds, at + 1
            if depth == 1 and text in ("<", ","):
                name, is_bound = None, False
            elif depth == 1 and text == ":":
                is_bound = True
            elif depth == 1 and text[0].isupper() and not is_bound:
                name = text
                bounds[name] = []
            elif depth == 1 and text[0].isupper() and name is not None:
                bounds[name].append(text)
            at += 1

    def read_function(self, at, is_public, block):
        start = at
        name = self.words[at + 1].text
        bounds, at = self.read_bounds(at + 2)
        close = self.close_of(at)
        parameters = [self.words[i - 1].text for i in range(at + 1, close) if self.words[i].text == ":" and self.depth_between(at, i) == 1]
        parameters += [self.words[i].text for i in range(at + 1, close) if self.words[i].text == "self"]
        mentions = self.type_names(at + 1, close)
        at = close + 1
        end = at
        while self.words[end].text not in ("requires", "ensures", "ghost", "{", ";"):
            end += 1
        mentions += self.type_names(at, end)
        clauses, at = self.read_clauses(end, block)
        at = self.close_of(at) + 1 if self.words[at].text == "{" else at + 1
        owner = block.owner if block else None
        outer = block.bounds if block else {}
        if block is not None and block.trait == block.owner:
            is_public = True
        it = Function(name, owner, is_public, self.line_of(start), parameters, {**outer, **bounds}, mentions, clauses)
        self.functions.append(it)
        return at

    def depth_between(self, start, end):
        depth = 0
        for i in range(start, end):
            text = self.words[i].text
            depth += (text in OPENS or text == "<") - (text in CLOSES or text == ">")
        return depth

    def read_clauses(self, at, block):
        clauses = []
        while self.words[at].text in ("requires", "ensures", "ghost"):
            kind = self.words[at].text
            opening = self.next_of(at, "{;")
            if kind == "ghost":
                at = self.next_of(at, "{;") if self.words[at + 1].text != "use" else self.next_of(at, ";")
                at = self.close_of(at) + 1 if self.words[at].text == "{" else at + 1
                continue
            label = self.words[opening - 1].text if opening > at + 1 else ""
            close = self.close_of(opening)
            clauses.append(Clause(kind, label, Term(self.slice(opening, close), block)))
            at = close + 1
        return clauses, at
