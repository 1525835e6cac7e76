#!/usr/bin/env python3
"""The table 'project files' of crates/script_cases: project files, and what each says by the rules of docs/FORMATS.md alone.

    tests/projects.py [FOLDER]      the table 'project files' of crates/script_cases

A case is one line. `\\` stands before the two hexadecimal digits of a byte.
"""

import random
import re

from lib import tables

AND_GATE = b"""[options]
size 10
modes inv
tags CHANGED NOCHANGE
[script]
read_verilog g.v
prep -top g
[files]
g.v
[logic]
if result("same") == "PASS":
    tag("NOCHANGE")
else:
    tag("CHANGED")
[test same]
eq
expect PASS FAIL
"""

COUNTER = b"""# the saturating counter
[options]
size 20
seed 7
conflicts 60000
cycles 300
tags COVERED UNCOVERED NOCHANGE EQGAP GIVENUP

[script]
read_verilog sat.v
prep -flatten -top sat
[files]
rtl/sat.v
[logic]
tb_okay = (result("test_sim") == "PASS")

# as it stands
  tag("COVERED")\t
[report]
print("covered: %d" % tags("COVERED"))
[test test_sim]
sim sat_tb sat_tb.v lib/clock.v
pass ALL  GOOD
fail BAD
maxbatchsize 10
[ test   test_eq ]
expect PASS UNKNOWN
eq
"""

MODES = ["inv", "const0", "const1", "cnot0", "cnot1"]
BITS = {"PASS": 1, "FAIL": 2, "HANG": 4, "UNKNOWN": 8}
NAME = re.compile(r"[A-Za-z_][A-Za-z0-9_]*\Z")
# The name of an instance or of a generate block within the design.
INNER = re.compile(r"[A-Za-z_][A-Za-z0-9_$\[\]-]*\Z")


class Fault(Exception):
    pass


def words_of(text):
    return [word for word in re.split("[ \t]+", text) if word]


def lines_of(text):
    pieces = text.split("\n")
    lines = [piece[:-1] if piece.endswith("\r") else piece for piece in pieces[:-1]]
    return lines + [pieces[-1]] * (pieces[-1] != "")


def is_number(word):
    return re.match(r"[0-9]+\Z", word) is not None


def range_of(word):
    """The parts of FILE:FROM-TO, or None."""
    file, _, lines = word.rpartition(":")
    front, _, back = lines.partition("-")
    return (file, front, back) if file and is_number(front) and is_number(back) else None


def is_within(word, least, most):
    return least <= int(word) <= most


def utf8_front(data):
    """The most bytes at the front that are UTF-8."""
    try:
        data.decode("utf-8")
        return len(data)
    except UnicodeDecodeError as e:
        return e.start


class Reader:
    """The rules, one section after the other. `at` is the number of the line that is judged."""

    def __init__(self, text):
        lines = [(n + 1, line) for n, line in enumerate(lines_of(text))]
        self.lead, self.sections = [], []
        for n, line in lines:
            bare = line.strip(" \t")
            if len(bare) >= 2 and bare[0] == "[" and bare[-1] == "]":
                self.sections.append((n, words_of(bare[1:-1]), []))
            elif self.sections:
                self.sections[-1][2].append((n, line))
            else:
                self.lead.append((n, line))
        self.paths = {}
        for _, header, body in self.sections:
            # A header whose first word is `files`, be it well formed or not: the first one.
            if header[:1] == ["files"]:
                for _, words in self.said(body):
                    self.paths.setdefault(words[0].rsplit("/", 1)[-1], words[0])
                break
        self.read = []
        # What lines of [options] may speak of, wherever in the file it stands.
        self.all_tags = next((words[1:] for _, words in self.words_in("options") if words[0] == "tags"), [])
        self.all_design = [self.paths.get(a, a) for _, words in self.words_in("script") if words[0] == "read_verilog" for a in words[1:]]

    def words_in(self, word):
        """The lines that say something, as words, of the first section whose header begins with this word."""
        for _, header, body in self.sections:
            if header[:1] == [word]:
                return list(self.said(body))
        return []

    @staticmethod
    def said(body):
        for n, line in body:
            words = words_of(line)
            if words and not words[0].startswith("#"):
                yield n, words

    def take(self, n, files):
        for name in files:
            if name not in self.read:
                self.read.append(name)
        if len(self.read) > 64:
            raise Fault(f"OutOfRange({n})")

    def project(self):
        for n, _ in self.said(self.lead):
            raise Fault(f"BadLine({n})")
        seen, self.tests = [], []
        self.options, self.design, self.tops = {}, [], []
        self.raw = {"logic": [], "report": []}
        for n, header, body in self.sections:
            is_test = len(header) == 2 and header[0] == "test" and NAME.match(header[1])
            if not is_test and (len(header) != 1 or header[0] not in ("options", "script", "files", "logic", "report")):
                raise Fault(f"BadLine({n})")
            if header in seen:
                raise Fault(f"Repeated({n})")
            if is_test and len(self.tests) == 16:
                raise Fault(f"OutOfRange({n})")
            seen.append(header)
            if is_test:
                self.test(header[1], body)
            elif header[0] in self.raw:
                self.raw[header[0]] = body
            else:
                getattr(self, "section_" + header[0])(body)
        self.missing(seen)
        return self.told()

    def has_form(self, key, args):
        if key in ("size", "seed", "conflicts"):
            return len(args) == 1 and is_number(args[0])
        if key == "cycles":
            return len(args) == 1 and (is_number(args[0]) or args == ["auto"])
        if key == "baseline":
            return args == ["on"]
        if key == "pick":
            return args in (["plain"], ["even"])
        if key == "require":
            percent, tag, of, *tags = args + [""] * (4 - len(args))
            named = NAME.match(tag) and all(NAME.match(a) for a in tags) and len(set(tags)) == len(tags)
            return is_number(percent) and of == "of" and named and tag in self.all_tags and all(a in self.all_tags for a in tags)
        if key == "only":
            ranges = [range_of(a) for a in args]
            return args and all(r and self.paths.get(r[0], r[0]) in self.all_design for r in ranges)
        if key == "skip":
            return args and all(all(INNER.match(part) for part in a.split(".")) for a in args)
        known = {"tags": NAME.match, "modes": MODES.__contains__}
        return args and all(known[key](a) for a in args)

    @staticmethod
    def has_range(key, args):
        ranges = {"size": (1, 10000), "seed": (0, 2**64 - 1), "conflicts": (1, 100000), "cycles": (1, 1000000), "require": (1, 100)}
        if key in ranges and args != ["auto"]:
            return is_within(args[0], *ranges[key])
        if key == "only":
            ends = [range_of(a)[1:] for a in args]
            return len(args) <= 64 and all(1 <= int(front) <= int(back) < 2**32 for front, back in ends)
        return len(args) <= {"tags": 32, "skip": 64}.get(key, len(args))

    def section_options(self, body):
        keys = ("size", "tags", "seed", "modes", "pick", "conflicts", "cycles", "baseline", "require", "only", "skip")
        for n, (key, *args) in self.said(body):
            if key not in keys:
                raise Fault(f"UnknownKey({n})")
            if not self.has_form(key, args):
                raise Fault(f"BadLine({n})")
            if key in self.options:
                raise Fault(f"Repeated({n})")
            if not self.has_range(key, args):
                raise Fault(f"OutOfRange({n})")
            self.options[key] = args

    def section_script(self, body):
        for n, (command, *args) in self.said(body):
            taken = {"read_verilog": [], "prep": ["-top", "-flatten"], "hierarchy": ["-top"]}
            if command not in taken or any(a.startswith("-") and a not in taken[command] for a in args):
                raise Fault(f"UnsupportedCommand({n})")
            if command == "read_verilog":
                if not args:
                    raise Fault(f"BadLine({n})")
                files = [self.paths.get(a, a) for a in args]
                self.take(n, files)
                self.design += files
                continue
            if command == "prep" and len(args) == 3:
                args = args[1:] if args[0] == "-flatten" else args[:2] if args[2] == "-flatten" else args
            if len(args) != 2 or args[0] != "-top" or not NAME.match(args[1]):
                raise Fault(f"BadLine({n})")
            if self.tops and self.tops[0] != args[1]:
                raise Fault(f"Repeated({n})")
            self.tops.append(args[1])

    def section_files(self, body):
        last = []
        for n, words in self.said(body):
            if len(words) != 1:
                raise Fault(f"BadLine({n})")
            part = words[0].rsplit("/", 1)[-1]
            if part in last:
                raise Fault(f"Repeated({n})")
            last.append(part)

    def test(self, name, body):
        texts = {n: line for n, line in body}
        given = {}
        for n, (key, *args) in self.said(body):
            forms = {
                "eq": not args,
                "sim": len(args) > 1 and NAME.match(args[0]),
                "pass": args,
                "fail": args,
                "expect": args and all(a in BITS for a in args),
                "maxbatchsize": len(args) == 1 and is_number(args[0]),
            }
            if key == "run":
                raise Fault(f"UnsupportedCommand({n})")
            if key not in forms:
                raise Fault(f"UnknownKey({n})")
            if not forms[key]:
                raise Fault(f"BadLine({n})")
            if key in ("eq", "sim") and ("eq" in given or "sim" in given):
                raise Fault(f"Repeated({n})")
            both = dict(given)
            both[key] = args
            if "eq" in both and ("pass" in both or "fail" in both or "HANG" in both.get("expect", [])):
                raise Fault(f"BadLine({n})")
            if "sim" in both and "UNKNOWN" in both.get("expect", []):
                raise Fault(f"BadLine({n})")
            if key in given:
                raise Fault(f"Repeated({n})")
            if key == "sim":
                self.take(n, args[1:])
            given[key] = args
            if key in ("pass", "fail"):
                given[key + " text"] = texts[n].strip(" \t")[4:].strip(" \t")
        self.tests.append((name, given))

    def missing(self, seen):
        if ["script"] not in seen:
            raise Fault("Missing(Script)")
        if not self.design:
            raise Fault("Missing(Read)")
        if not self.tops:
            raise Fault("Missing(Top)")
        if ["logic"] not in seen:
            raise Fault("Missing(Logic)")
        for k, (_, given) in enumerate(self.tests):
            if "eq" not in given and "sim" not in given:
                raise Fault(f"Missing(Kind({k}))")
        for k, (_, given) in enumerate(self.tests):
            if "sim" in given and "pass" not in given:
                raise Fault(f"Missing(Pass({k}))")

    def rarer(self, texts):
        """What the options say that few projects have."""
        if self.options.get("cycles") == ["auto"]:
            yield "auto"
        if "baseline" in self.options:
            yield "baseline"
        if "require" in self.options:
            percent, tag, _, *tags = self.options["require"]
            yield f"require {int(percent)} {tag}{texts(tags)}"
        for word in self.options.get("only", []):
            file, front, back = range_of(word)
            yield f"only {escaped(self.paths.get(file, file).encode())} {int(front)} {int(back)}"
        if "skip" in self.options:
            yield "skip" + texts(self.options["skip"])

    def told(self):
        def option(key, default):
            words = self.options.get(key, ["auto"])
            return default if words == ["auto"] else int(words[0])

        def texts(items):
            return "".join(" " + escaped(item.encode()) for item in items)

        def lines(body):
            return "".join(f" {n}:{escaped(line.encode())}|" for n, line in body)

        modes = self.options.get("modes", MODES)
        parts = [
            f"size {option('size', 20)}",
            f"seed {option('seed', 1)}",
            "modes" + "".join(" " + mode for mode in MODES if mode in modes),
            self.options.get("pick", ["plain"])[0],
            f"conflicts {option('conflicts', 20000)}",
            f"cycles {option('cycles', 100000)}",
            *self.rarer(texts),
            "tags" + texts(self.options.get("tags", [])),
            "design" + texts(self.design),
            "top " + self.tops[0],
            "logic" + lines(self.raw["logic"]),
            "report" + lines(self.raw["report"]),
        ]
        for name, given in self.tests:
            text = f"test {name}"
            if "sim" in given:
                bench, *files = given["sim"]
                text += f" sim {bench}{texts(files)} pass |{escaped(given['pass text'].encode())}|"
                text += f" fail |{escaped(given.get('fail text', '').encode())}|"
                mask = 7
            else:
                text += " eq"
                mask = 11
            if "expect" in given:
                mask = sum(BITS[word] for word in set(given["expect"]))
            parts.append(f"{text} expect {mask}")
        return "; ".join(parts)


def escaped(data):
    return "".join(chr(b) if 32 <= b <= 126 and b != 92 else f"\\{b:02x}" for b in data)


def answer(data):
    front = utf8_front(data)
    if front < len(data):
        return f"NotUtf8({front})"
    try:
        return Reader(data.decode("utf-8")).project()
    except Fault as fault:
        return str(fault)


def with_line(project, after, line):
    """The project with one line more behind the first line that begins so."""
    lines = project.split(b"\n")
    at = next(i for i, text in enumerate(lines) if text.startswith(after))
    return b"\n".join(lines[: at + 1] + [line] + lines[at + 1 :])


def replaced(project, old, new):
    assert old in project
    return project.replace(old, new, 1)


def rows():
    yield "the and gate, the counter, nothing"
    yield AND_GATE
    yield COUNTER
    yield b""
    yield "unsupported command, size zero"
    yield with_line(AND_GATE, b"eq", b"run bash test.sh")
    yield replaced(AND_GATE, b"size 10", b"size 0")
    yield "ends of lines"
    yield AND_GATE.replace(b"\n", b"\r\n")
    yield AND_GATE[:-1]
    yield AND_GATE[:-1] + b"\r"
    yield replaced(AND_GATE, b"size 10", b"size 10\r\r")
    yield b"\r\n" + AND_GATE
    yield "what is no UTF-8"
    yield AND_GATE + b"# \xff"
    yield b"bad line\n\xc3"
    yield replaced(AND_GATE, b"g.v\n", "né.v\n".encode())
    yield b"\xef\xbb\xbf" + AND_GATE
    yield "headers"
    for header in [b"[option]", b"[options] x", b"[options", b"options]", b"[]", b"[", b"[test]", b"[test 1x]", b"[test a b]", b"[test a-b]", b"[ logic x ]", b"[Options]", b"[[options]]", b"[options]#", b"\t[ files\t] ", b"[report]", b"[test other]", b"[test same]", b"[logic]"]:
        yield AND_GATE + header + b"\n"
        yield replaced(AND_GATE, b"else:\n", b"else:\n" + header + b"\n")
    yield "in front of the first header"
    yield b"\n  # note\n\t\n" + AND_GATE
    yield b"\nsize 10\n" + AND_GATE
    yield "options"
    for line in [b"size", b"size 1 2", b"size x", b"size -1", b"size +1", b"size 1", b"size 10000", b"size 10001", b"size 0", b"size 007", b"size " + b"0" * 60 + b"9", b"size " + b"9" * 60, b"Size 1", b"size=1", b"sizes 1", b"tags", b"tags A A", b"tags 1A", b"tags A-B", b"tags " + b" ".join(b"T%d" % i for i in range(32)), b"tags " + b" ".join(b"T%d" % i for i in range(33)), b"modes", b"modes inv inv", b"modes cnot1 const0", b"modes inv none", b"pick", b"pick even", b"pick plain", b"pick odd", b"pick even even", b"seed 0", b"seed 18446744073709551615", b"seed 18446744073709551616", b"seed 1e3", b"conflicts 0", b"conflicts 1", b"conflicts 100000", b"conflicts 100001", b"cycles 0", b"cycles 1000000", b"cycles 1000001", b"threads 4", b"  \tsize \t 12\t ", b"size 12 # twelve", b"#size 12", b"run x"]:
        yield b"[options]\n" + line + b"\n" + AND_GATE.split(b"tags CHANGED NOCHANGE\n")[1]
    for line in [b"size 10", b"size 0", b"size x", b"tags A", b"modes inv", b"seed 3", b"pick even"]:
        yield with_line(with_line(AND_GATE, b"[options]", b"seed 2"), b"tags", line)
    yield "baselines, requirements and places"
    requirements = [b"90 CHANGED of CHANGED NOCHANGE", b"90 CHANGED of NOCHANGE", b"90 CHANGED of CHANGED CHANGED", b"90 CHANGED of", b"90 CHANGED CHANGED", b"90 of CHANGED", b"90 OTHER of CHANGED", b"90 CHANGED of OTHER", b"0 CHANGED of CHANGED", b"100 NOCHANGE of CHANGED", b"101 CHANGED of CHANGED", b"x CHANGED of CHANGED", b"090 CHANGED of CHANGED", b"90 CHANGED OF CHANGED", b"", b"0 OTHER of CHANGED"]
    places = [b"g.v:1-3", b"g.v:3-3", b"g.v:3-1", b"g.v:0-3", b"g.v:1-4294967295", b"g.v:1-4294967296", b"g.v:1", b"g.v", b":1-3", b"h.v:1-3", b"g.v:1-3 g.v:5-7", b"g.v:1-3 h.v:1-3", b"g.v:a-3", b"g.v:1-", b"g.v:-3", b"g.v:1-3-5", b"", b" ".join([b"g.v:1-3"] * 64), b" ".join([b"g.v:1-3"] * 65), b"x:g.v:1-3"]
    instances = [b"a", b"a.b", b"a.b c_1", b"a.", b".a", b"a..b", b"1a", b"a-b", b"lane[3].core", b"lane[-1].u$1.x", b"[3]", b"$a", b"-a", b"a,b", b"a:b", b"", b" ".join(b"i%d" % i for i in range(64)), b" ".join(b"i%d" % i for i in range(65))]
    lines = [b"baseline on", b"baseline off", b"baseline", b"baseline on on", b"baseline On", b"cycles auto", b"cycles auto 3", b"cycles Auto", b"cycles 3 auto"]
    lines += [b"require " + text for text in requirements] + [b"only " + text for text in places] + [b"skip " + text for text in instances]
    for line in lines:
        yield with_line(AND_GATE, b"[options]", line)
        yield with_line(AND_GATE, b"tags", line)
    for key in (b"baseline on", b"cycles auto", b"require 5 CHANGED of CHANGED", b"only g.v:1-2", b"skip a"):
        yield with_line(with_line(AND_GATE, b"tags", key), b"modes", key)
        yield with_line(with_line(AND_GATE, b"tags", key), b"modes", b"tags CHANGED")
    for file in (b"g.v", b"rtl/g.v", b"h.v"):
        yield with_line(replaced(AND_GATE, b"\ng.v\n", b"\nrtl/g.v\n"), b"tags", b"only " + file + b":1-3")
    yield "script"
    for line in [b"read_verilog", b"read_verilog a.v b.v g.v", b"read_verilog -sv g.v", b"read_verilog g.v -sv", b"prep", b"prep -top", b"prep -top g", b"prep -top h", b"prep g", b"prep -flatten", b"prep -flatten -top g", b"prep -top g -flatten", b"prep -top -flatten g", b"prep -flatten -top g -flatten", b"prep -top 9", b"prep -top g h", b"prep -top g -nordff", b"prep -top g -top g", b"hierarchy -top g", b"hierarchy -top h", b"hierarchy -top g -flatten", b"hierarchy -check", b"hierarchy", b"proc", b"opt -full", b"# opt", b"size 3"]:
        yield with_line(AND_GATE, b"[script]", line)
        yield with_line(AND_GATE, b"prep", line)
    yield "files"
    for line in [b"g.v", b"rtl/g.v", b"a.v b.v", b"x/", b"y/\nz/", b"# g.v", b"a/b/h.v\nc/h.v", b"/", b"h.v"]:
        yield with_line(AND_GATE, b"g.v", line)
    yield replaced(replaced(AND_GATE, b"read_verilog g.v", b"read_verilog g.v a/g.v g.v"), b"\ng.v\n", b"\na/g.v\n")
    yield "tests"
    for line in [b"eq", b"eq x", b"sim g_tb t.v", b"sim g_tb", b"sim", b"sim 1 t.v", b"pass X", b"pass", b"fail X", b"expect PASS", b"expect", b"expect HANG", b"expect pass", b"maxbatchsize 10", b"maxbatchsize", b"maxbatchsize ten", b"maxbatchsize 99999999999999999999999", b"run", b"run x", b"speed 3", b"size 3", b"[test same]", b"maxbatchsize 1\nmaxbatchsize 2"]:
        yield AND_GATE + line + b"\n"
        yield AND_GATE + b"[test other]\n" + line + b"\n"
        yield AND_GATE + b"[test other]\neq\n" + line + b"\n"
        yield AND_GATE + b"[test other]\nsim g_tb t.v\npass OK\n" + line + b"\n"
        yield AND_GATE + b"[test other]\n" + line + b"\nsim g_tb t.v\npass OK\n"
        yield AND_GATE + b"[test other]\n" + line + b"\neq\n"
    yield AND_GATE + b"[test other]\nexpect HANG UNKNOWN\n"
    yield AND_GATE + b"[test other]\nexpect HANG UNKNOWN\neq\n"
    yield AND_GATE + b"[test other]\nsim t t.v\npass \t two  words\t\nfail [x]\nexpect FAIL PASS FAIL\n"
    yield "how many"
    for count in (15, 16):
        yield AND_GATE + b"".join(b"[test t%d]\neq\n" % i for i in range(count))
    for count in (62, 63, 64, 65):
        names = b" ".join(b"f%d.v" % i for i in range(count))
        yield replaced(AND_GATE, b"read_verilog g.v", b"read_verilog g.v " + names)
        yield AND_GATE + b"[test other]\npass X\nsim t " + names + b" g.v\n"
        yield replaced(AND_GATE, b"read_verilog g.v", b"read_verilog a/f0.v " + names) + b"[test other]\nsim t t.v t.v\n"
        yield replaced(replaced(AND_GATE, b"read_verilog g.v", b"read_verilog a/f0.v " + names), b"\ng.v\n", b"\na/f0.v\n")
        yield replaced(AND_GATE, b"read_verilog g.v", b"read_verilog g.v " + names + b"\nread_verilog f1.v\nproc")
    yield "missing"
    for cut in [b"read_verilog g.v\n", b"prep -top g\n", b"eq\n", b"[script]\nread_verilog g.v\nprep -top g\n"]:
        yield replaced(AND_GATE, cut, b"")
    yield AND_GATE.split(b"[logic]")[0]
    yield AND_GATE + b"[test a]\n[test b]\nsim t t.v\n[test c]\nsim t t.v\n"
    yield AND_GATE + b"[test b]\nsim t t.v\n[test c]\nexpect PASS\n"


def edits(count):
    """Random edits of the two projects: lines and bytes dropped, doubled, moved and changed."""
    random.seed(20260)
    pool = [line for project in (AND_GATE, COUNTER) for line in project.split(b"\n")]
    for _ in range(count):
        lines = random.choice((AND_GATE, COUNTER)).split(b"\n")
        for _ in range(random.randint(1, 3)):
            at, kind = random.randrange(len(lines)), random.randrange(6)
            if kind == 0:
                del lines[at]
                lines = lines or [b""]
            elif kind == 1:
                lines.insert(at, random.choice(pool))
            elif kind == 2:
                other = random.randrange(len(lines))
                lines[at], lines[other] = lines[other], lines[at]
            elif kind == 3 and lines[at]:
                place = random.randrange(len(lines[at]))
                lines[at] = lines[at][:place] + bytes([random.choice(b"\t []#/-_09azAZ\r\x80\xff")]) + lines[at][place + 1 :]
            elif kind == 4:
                words = lines[at].split(b" ")
                random.shuffle(words)
                lines[at] = b" ".join(words)
            else:
                lines[at] = lines[at] + random.choice((b" x", b" 1", b"\t", b" -top g", b" PASS", b" inv"))
        yield b"\n".join(lines)


def cases():
    yield from rows()
    yield "random edits"
    yield from edits(400)
    yield "blanks are spaces and tabs"
    yield b" \t[options]\t \n\tsize\t 10 \t\n"
    for text in [b"size\f10", b"size 10\f", b"\v", "size\u00a010".encode()]:
        yield b"[options]\n" + text + b"\n"
    yield b"\f[options]\nsize 10\n"


def given(case):
    text = escaped(case)
    return "\\23" + text[1:] if text.startswith("#") else text


def main():
    given_rows, told_rows = [], []
    for case in cases():
        title = "# " + case if isinstance(case, str) else None
        given_rows.append(title or given(case))
        told_rows.append(title or answer(case))
    tables.save("script_cases", given_rows, told_rows, "project files")


main()
