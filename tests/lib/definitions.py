"""The files of specs/: what each takes from others, what it defines, and which names a term uses that it does not bind itself."""

import dataclasses

OPENS, CLOSES = "([{⟦", ")]}⟧"
ALONE = frozenset(OPENS + CLOSES + ",;λ¬")
MARKS = ALONE | {".", "=", ":", "|", "↦", "→"}
SMALL_CONSTRUCTORS = {"true", "false", "zero", "suc", "pos", "negsuc", "inl", "inr", "yes", "no", "[]", "◌∷◌"}
HEADS = ("abbrev", "unfoldable", "record", "data", "pub")


@dataclasses.dataclass
class Token:
    """A name or a mark. `after_dot` is whether a field or a name of a module is taken by it, `is_end` whether it is the dot behind bound names."""

    text: str
    after_dot: bool = False
    is_end: bool = False


@dataclasses.dataclass
class Import:
    """A line `use`: a module's path, the names that are taken of it by their names here, or its own name here."""

    path: tuple
    names: dict
    alias: str
    is_public: bool


@dataclasses.dataclass
class Definition:
    """A definition: its lines without comments, in pieces of which each begins at the margin, and the binders of the module around it."""

    name: str
    kind: str
    line: int
    pieces: list
    around: str = ""
    constructors: tuple = ()

    @property
    def size(self):
        return sum(piece.count("\n") + 1 for piece in self.pieces)


def is_name(text):
    return text not in MARKS


def tokens(text):
    """The tokens of a term. A string is none."""
    found, at = [], 0
    while at < len(text):
        c = text[at]
        if c.isspace():
            at += 1
        elif c == '"':
            at = string_end(text, at)
        elif c == ".":
            if at + 1 < len(text) and not text[at + 1].isspace():
                at += 1
                end = name_end(text, at)
                found.append(Token(text[at:end].strip("«»"), after_dot=True))
                at = max(end, at)
            else:
                found.append(Token(".", is_end=True))
                at += 1
        elif c in ALONE:
            size = 2 if text.startswith("[]", at) else 1
            found.append(Token(text[at:at + size]))
            at += size
        else:
            end = name_end(text, at)
            found.append(Token(text[at:end].strip("«»")))
            at = end
    return found


def string_end(text, at):
    """The place behind the string that begins here."""
    at += 1
    while at < len(text) and text[at] != '"':
        at += 2 if text[at] == "\\" else 1
    return at + 1


def name_end(text, at):
    while at < len(text) and not text[at].isspace() and text[at] not in ALONE and text[at] not in '."':
        at += 1
    return at


# ---------------------------------------------------------------------------------------------------------------
# The names that a term uses
# ---------------------------------------------------------------------------------------------------------------

class Scope:
    """The names that are bound where a walk over a term stands, a set for each open bracket."""

    def __init__(self, bound):
        self.sets = [set(bound)]

    def has(self, name):
        return any(name in names for names in self.sets)

    def bind(self, names):
        self.sets[-1].update(names)

    def open(self):
        self.sets.append(set())

    def close(self):
        if len(self.sets) > 1:
            self.sets.pop()


def binder_names(toks, at):
    """The names that a bracket at this place binds, as those of `(a b : T)`, or none."""
    names = []
    for token in toks[at + 1:]:
        if token.text == ":" and names:
            return names
        if not is_name(token.text) or token.after_dot:
            return []
        names.append(token.text)
    return []


def pattern_places(toks):
    """The places of tokens that stand in patterns: from `[` or `|` to `↦`."""
    places, starts = set(), []
    for at, token in enumerate(toks):
        if token.text in OPENS:
            starts.append(at)
        elif token.text in CLOSES and starts:
            starts.pop()
        elif token.text == "|" and starts:
            starts[-1] = at
        elif token.text == "↦" and starts:
            places.update(range(starts[-1] + 1, at))
    return places


def is_label(toks, at):
    """Whether the token names a field of a record that is written out, or a hidden argument."""
    return toks[at - 1].text in "{;" and at + 1 < len(toks) and toks[at + 1].text == "=" if at else False


def used(toks, scope, is_constructor):
    """Yields each name that is used and not bound, with the names that are taken of it by dots."""
    patterns = pattern_places(toks)
    pending, lets = [], []
    for at, token in enumerate(toks):
        text = token.text
        if text in OPENS:
            scope.open()
            pending.append(binder_names(toks, at) if text in "({" else [])
        elif text in CLOSES:
            scope.close()
            scope.bind(pending.pop() if pending else [])
        elif text == "in" and lets:
            scope.bind([lets.pop()])
        elif text == "|":
            scope.sets[-1].clear()
        elif not is_name(text) or token.after_dot or token.is_end or is_label(toks, at):
            continue
        elif at and toks[at - 1].text == "let":
            lets.append(text)
        elif is_lambda(toks, at):
            scope.bind([text])
        elif at in patterns and not is_constructor(text):
            scope.bind([text])
        elif pending and text in pending[-1]:
            continue
        elif not scope.has(text):
            yield text, dotted(toks, at)


def is_lambda(toks, at):
    """Whether the token is bound by a `λ` before it."""
    back = at - 1
    while back >= 0 and is_name(toks[back].text) and not toks[back].after_dot:
        back -= 1
    return back >= 0 and toks[back].text == "λ"


def dotted(toks, at):
    """The names that are taken by dots of the name at this place."""
    names = []
    while at + 1 < len(toks) and toks[at + 1].after_dot:
        at += 1
        names.append(toks[at].text)
    return tuple(names)


# ---------------------------------------------------------------------------------------------------------------
# The pieces of a definition
# ---------------------------------------------------------------------------------------------------------------

def equation_parts(toks):
    """The left side and the right side of an equation."""
    depth = 0
    for at, token in enumerate(toks):
        depth += (token.text in OPENS) - (token.text in CLOSES)
        if token.text == "=" and depth == 0:
            return toks[:at], toks[at + 1:]
    return toks, []


def names_in(definition, is_constructor):
    """Yields the names that a definition uses: its signature, its equations, its fields or constructors."""
    around = []
    if definition.around:
        toks = tokens(definition.around)
        yield from used(toks, Scope([]), is_constructor)
        around = [name for at in range(len(toks)) if toks[at].text in "({" for name in binder_names(toks, at)]
    if definition.kind in ("record", "data"):
        yield from names_of_type(definition, around, is_constructor)
        return
    for number, piece in enumerate(definition.pieces):
        toks = tokens(piece)
        if toks[0].text == "unfolding":
            continue
        if number == 0:
            at = next(i for i, token in enumerate(toks) if token.text == ":")
            yield from used(toks[at + 1:], Scope(around), is_constructor)
        elif definition.kind != "lemma":
            yield from names_of_equation(definition, toks, around, is_constructor)


def names_of_equation(definition, toks, around, is_constructor):
    left, right = equation_parts(toks)
    bound = set(around)
    for at, token in enumerate(left):
        if not is_name(token.text) or token.after_dot or token.text == definition.name:
            continue
        if is_constructor(token.text) or at + 1 < len(left) and left[at + 1].after_dot:
            yield token.text, dotted(left, at)
        else:
            bound.add(token.text)
    yield from used(right, Scope(bound), is_constructor)


def names_of_type(definition, around, is_constructor):
    """Those of a record or a `data`. A field's name stands for the field in the later ones."""
    head, *parts = type_parts(definition)
    scope = Scope(around)
    toks = tokens(head)
    yield from used(toks[1:], scope, is_constructor)
    for part in parts:
        toks = [token for token in tokens(part) if token.text != "pub"]
        inner = Scope(set().union(*scope.sets))
        at = next((i for i, token in enumerate(toks) if token.text == ":"), None)
        if at is None:
            continue
        yield from used(toks[at + 1:], inner, is_constructor)
        if definition.kind == "record":
            scope.bind(token.text for token in toks[:at])


def type_parts(definition):
    """The head of a record or a `data` behind its keyword, and each of its fields or constructors."""
    lines = "\n".join(definition.pieces).split("\n")
    head = lines[0].split(definition.kind, 1)[1].removesuffix("where")
    margin = min((len(line) - len(line.lstrip()) for line in lines[1:] if line.strip()), default=0)
    parts = []
    for line in lines[1:]:
        if len(line) - len(line.lstrip()) == margin or not parts:
            parts.append(line)
        else:
            parts[-1] += "\n" + line
    return [head] + parts


# ---------------------------------------------------------------------------------------------------------------
# A whole file
# ---------------------------------------------------------------------------------------------------------------

class SpecFile:
    """A file of specs/: `imports` and `definitions`."""

    def __init__(self, text):
        self.imports, self.definitions = [], {}
        lines = [(number, line) for number, line in enumerate(text.split("\n"), 1) if line.strip() and not line.lstrip().startswith("--")]
        self.read(lines, "", "lemma")

    def read(self, lines, around, plain):
        """Reads these lines. `plain` is the kind of a definition that has no word for it before its name."""
        current = None
        for chunk in chunks(lines):
            number, first = chunk[0]
            words = first.split()
            if words[0] == "use" or words[:2] == ["pub", "use"]:
                self.imports.append(read_import(" ".join(line.strip() for _, line in chunk)))
            elif words[:2] == ["pub", "mod"] or words[0] == "mod":
                continue
            elif words[0] == "module" or words == ["abbrev", "mutual"] or words == ["mutual"]:
                binders = first.split("_", 1)[1].removesuffix("where") if words[0] == "module" else ""
                self.read(dedented(chunk[1:]), around + binders, "abbrev" if words[0] == "abbrev" else "lemma")
            else:
                head = head_of(words)
                if head is not None:
                    current = Definition(head[1], head[0] or plain, number, [], around)
                    self.definitions[current.name] = current
                if current is not None:
                    current.pieces.append("\n".join(line for _, line in chunk))
        for it in self.definitions.values():
            if it.kind == "data":
                it.constructors = tuple(part.split(":")[0].strip() for part in type_parts(it)[1:])

    def owner_of(self, name):
        """The definition of this name, or the `data` whose constructor it is."""
        if name in self.definitions:
            return self.definitions[name]
        return next((it for it in self.definitions.values() if name in it.constructors), None)


def chunks(lines):
    """The lines in chunks, each of which begins at the margin."""
    current = []
    for number, line in lines:
        if current and not line[0].isspace() and line[0] not in CLOSES:
            yield current
            current = []
        current.append((number, line))
    if current:
        yield current


def dedented(lines):
    margin = min((len(line) - len(line.lstrip()) for _, line in lines), default=0)
    return [(number, line[margin:]) for number, line in lines]


def head_of(words):
    """The word for the kind, if it has one, and the name of the definition that begins so, or None where one goes on."""
    kind, rest = None, list(words)
    while rest and rest[0] in HEADS:
        word = rest.pop(0)
        kind = word if word != "pub" else kind
    if not rest or kind is None and (len(rest) < 2 or rest[1] != ":"):
        return None
    return kind, rest[0].strip("«»")


def said(name):
    """The word by which a term uses a name: of an operator, as `◌++◌` or `if◌then◌else◌`, its first one."""
    return next(part for part in name.strip("«»").split("◌") if part)


def read_import(line):
    is_public = line.startswith("pub ")
    words = line.removeprefix("pub ").removeprefix("use ").strip().rstrip(";").strip()
    names, alias = {}, None
    if "{" in words:
        path, inside = words.split("{", 1)
        for item in inside.rstrip("} ").split(","):
            parts = item.split()
            if parts:
                names[said(parts[-1])] = parts[0].strip("«»")
        path = path.rstrip(". ")
    else:
        path, _, alias = words.partition(" as ")
        alias = alias.strip() or path.strip().rsplit(".", 1)[-1]
    return Import(tuple(part.strip("«»") for part in path.strip().split(".")), names, alias, is_public)
