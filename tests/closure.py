#!/usr/bin/env python3
"""Tells what a reader has to believe of public calls: the definitions that their clauses name, and those that these name, to the end.

    tests/closure.py CALL [CLAUSE..]                  a line a file with its definitions and their lines, and the sums
    tests/closure.py --list CALL [CLAUSE..]           each definition, with how many lines it has and the line where it stands
    tests/closure.py --clauses CALL..                 the sums alone, a line for each clause
    tests/closure.py --table                          the table of docs/PROVED.md: what there is to believe of the calls that it names
    tests/closure.py --why NAME CALL [CLAUSE..]       by which definitions one of this name is reached
    tests/closure.py --without NAME CALL [CLAUSE..]   what is left where definitions of this name (or FILE.NAME) are not followed
    tests/closure.py --unused                         the definitions of specs/ that no public clause of any crate reaches
    tests/closure.py --unused CALL..                  those that none of these calls reaches

A CALL is CRATE::FUNCTION or CRATE::TYPE::FUNCTION. Where clauses are named, these are followed with the `requires`, else all.

Definitions are those of `specs/`, and their lines are without comments and blank ones. Of a type of `src/` that they or the call
name, the declaration is followed, or where it has a model, the model's value and view. What an `invariant` names, of a type or of a
loop, is not followed: it is proved, and no clause says less without it. Of a trait that an argument has to meet, those members are
followed which the clauses name. A law is believed by what it says, so its proof is not followed. Names of std and of the kit's crates
are counted alone.
"""
import argparse
import signal
import sys
from collections import Counter, defaultdict
from pathlib import Path

sys.path.insert(0, str(Path(__file__).resolve().parent))
from lib.naming import SAID, Naming  # noqa: E402
from lib.repository import STD, Repository, crate_of  # noqa: E402

ROOT = Path(__file__).resolve().parent.parent
PROVED = ("invariant", "coded")
# The rows of docs/PROVED.md: a call, what the table says behind it, and its clauses, of which the empty one is all together.
ROWS = (
    ("mcy_top::mcy_main", ": that a PASS is true", "pass"),
    ("mcy_top::mcy_main", "", "", "answer", "life", "complete", "demo", "baseline"),
    ("file_calls::call_on_file", ": that a PASS in a file is true", "pass"),
    ("file_calls::call_on_file", "", ""),
    ("row_laws::rows_tell_of_all_runs", "", "pass"),
    ("project_sources::read_netlist", ": from bytes", "elaborates", "netlist"),
    ("elab_hier::elaborate", ": from modules", "ok", "accepted", "refused"),
    ("tb_reading::read_bench", "", "built"),
    ("tb_runner::transcript", "", ""),
    ("tb_runner::SimJob::turn", "", "told"),
    ("equiv_test::EqJob::new", "", "refused"),
    ("equiv_test::EqJob::turn", "", "told"),
    ("mutation_sites::mutate", "", ""),
)


class Closure:
    """A walk from clauses to all that they name. `items` has by which item each was reached first."""

    def __init__(self, naming, without=()):
        self.naming, self.repository, self.without = naming, naming.repository, without
        self.items = {}

    def add(self, items):
        """These items, and all that they name, the nearest first."""
        todo = [(item, None) for item in items]
        for item, by in todo:
            if item not in self.items and not self.is_left_out(item):
                self.items[item] = by
                todo += [(it, item) for it in self.naming.of(item)]

    def is_left_out(self, item):
        return item[-1] in self.without or f"{Path(item[1]).stem}.{item[-1]}" in self.without

    # What came of it

    def size(self, item):
        """The lines of an item, and the line where it stands."""
        kind, file, *rest = item
        if kind == "spec":
            it = self.repository.spec(file).definitions[rest[0]]
            return it.size, it.line
        source = self.repository.source(file)
        if kind == "member":
            line, size, _ = source.blocks[rest[0]].members[rest[1]]
            return size, line
        model = self.repository.model_of(file, rest[0])
        if model is None:
            return source.types[rest[0]].size, source.types[rest[0]].line
        members = [model.members[it] for it in SAID]
        return sum(size for _, size, _ in members), members[0][0]

    def sums(self):
        """How many definitions of specs/ there are with how many lines, how many types with how many, and the names of the kit."""
        specs = [self.size(it)[0] for it in self.items if it[0] == "spec"]
        types = [self.size(it)[0] for it in self.items if it[0] in ("type", "member")]
        kit = Counter("std" if it[1] in STD else it[1] for it in self.items if it[0] == "kit")
        return len(specs), sum(specs), len(types), sum(types), kit

    def way_to(self, item):
        """The items from a clause to this one."""
        way = []
        while item is not None:
            way.append(item)
            item = self.items[item]
        return way[::-1]


def shown(item):
    return f"{item[1].removeprefix('crates/')}: {item[-1]}"


def function_of(repository, call):
    crate, _, path = call.partition("::")
    if crate not in repository.crates:
        sys.exit(f"there is no crate {crate}")
    found = [(file, it) for file, it in repository.public_functions(crate) if it.path == path]
    if len(found) != 1:
        names = " ".join(sorted(it.path for _, it in repository.public_functions(crate)))
        sys.exit(f"{crate} has {len(found)} public functions {path}. It has {names}")
    return found[0]


def closure_of(naming, call, labels=(), without=()):
    file, function = function_of(naming.repository, call)
    known = [it.label for it in function.clauses if it.kind == "ensures"]
    unknown = [it for it in labels if it not in known]
    if unknown:
        sys.exit(f"{call} has no clause {' '.join(unknown)}. It has {' '.join(known)}")
    closure = Closure(naming, without)
    closure.add(naming.of_function(file, function, labels))
    return closure, function


def print_sums(closure, function):
    count, lines, types, type_lines, kit = closure.sums()
    files = {it[1] for it in closure.items if it[0] == "spec"}
    print(f"{count:6} {lines:6}  definitions of specs/, in {len(files)} files of {len(set(map(crate_of, files)))} crates")
    print(f"{types:6} {type_lines:6}  types of src/, as they are declared or modelled, and members of traits")
    others = sorted(it for it in kit if it != "std")
    by_crate = "".join(f", {it} {kit[it]}" for it in others)
    print(f"{kit['std']:6}         names of std, and {sum(kit[it] for it in others)} of the kit's crates{by_crate}")
    traits = sorted({it for names in function.bounds.values() for it in names})
    if traits:
        print(f"               for arguments that meet {', '.join(traits)}")
    if closure.naming.unknown:
        print(f"               names that mean nothing to this script: {' '.join(sorted(closure.naming.unknown))}")


def print_closure(closure, function, is_list):
    files = defaultdict(list)
    for item in closure.items:
        if item[0] != "kit":
            files[item[1]].append((*closure.size(item), item[-1]))
    lines = {file: sum(size for size, _, _ in found) for file, found in files.items()}
    print("  defs  lines")
    for file in sorted(files, key=lambda it: (-lines[it], it)):
        print(f"{len(files[file]):6} {lines[file]:6}  {file}")
        for size, line, name in sorted(files[file], key=lambda it: it[1]) if is_list else []:
            print(f"       {size:6}    {name} ({line})")
    print_sums(closure, function)


def print_clauses(naming, calls):
    """A line for each clause of each call, and one for all of a call."""
    print("  defs  lines  types  lines    std    kit")
    for call in calls:
        _, function = function_of(naming.repository, call)
        labels = [it.label for it in function.clauses if it.kind == "ensures"]
        for label in labels + ([""] if len(labels) > 1 else []):
            closure, _ = closure_of(naming, call, [label] if label else [])
            *numbers, kit = closure.sums()
            numbers += [kit["std"], sum(kit.values()) - kit["std"]]
            print(" ".join(f"{it:6}" for it in numbers) + f"  {call} {label or ('all' if len(labels) > 1 else '')}")


def print_table(naming):
    for call, about, *labels in ROWS:
        crate, _, name = call.partition("::")
        head = f"`{name}` of `{crate}`{about}"
        for label in labels:
            closure, _ = closure_of(naming, call, [label] if label else [])
            numbers = " | ".join(f"{it:,}" for it in closure.sums()[:4])
            print(f"| {head} | {f'`{label}`' if label else 'all'} | {numbers} |".replace("|  |", "| |"))
            head = ""


def print_ways(closure, name):
    found = [it for it in closure.items if it[0] != "kit" and it[-1] == name]
    for item in found:
        print(" -> ".join(map(shown, closure.way_to(item))))
    if not found:
        print(f"no definition {name} is reached")


def reached(naming):
    """The closure of all public clauses and of what public types are in contracts."""
    closure, repository = Closure(naming), naming.repository
    for crate in sorted(repository.crates):
        for file, function in repository.public_functions(crate):
            closure.add(naming.of_function(file, function, ()))
        for file in repository.files(crate, "src", ".rt"):
            for number, block in enumerate(repository.source(file).blocks):
                if repository.is_type_exported(file, block.owner):
                    closure.add(("member", file, number, it) for it in block.members if it not in PROVED)
    return closure


def print_unused(naming, calls):
    closure, repository = Closure(naming) if calls else reached(naming), naming.repository
    for call in calls:
        closure.add(naming.of_function(*function_of(repository, call), ()))
    count, lines, total = 0, 0, 0
    for crate in sorted(repository.crates):
        for file in repository.files(crate, "specs", ".antt"):
            definitions = repository.spec(file).definitions.values()
            found = [it for it in definitions if ("spec", file, it.name) not in closure.items]
            if found:
                print(f"{len(found):6} {sum(it.size for it in found):6}  {file}: {' '.join(it.name for it in found)}")
            total += len(definitions)
            count, lines = count + len(found), lines + sum(it.size for it in found)
    print(f"{count:6} {lines:6}  definitions of specs/ that are not reached, of {total}")


def main():
    signal.signal(signal.SIGPIPE, signal.SIG_DFL)
    parser = argparse.ArgumentParser(description=__doc__, formatter_class=argparse.RawDescriptionHelpFormatter, usage=argparse.SUPPRESS)
    for flag in ("--list", "--clauses", "--table", "--unused"):
        parser.add_argument(flag, action="store_true", help=argparse.SUPPRESS)
    for option in ("--why", "--without"):
        parser.add_argument(option, metavar="NAME", action="append", default=[], help=argparse.SUPPRESS)
    parser.add_argument("rest", nargs="*", help=argparse.SUPPRESS)
    asked = parser.parse_args()
    naming = Naming(Repository(ROOT))
    if asked.unused:
        print_unused(naming, asked.rest)
    elif asked.table:
        print_table(naming)
    elif not asked.rest:
        sys.exit(__doc__)
    elif asked.clauses:
        print_clauses(naming, asked.rest)
    else:
        closure, function = closure_of(naming, asked.rest[0], asked.rest[1:], asked.without)
        if asked.why:
            for name in asked.why:
                print_ways(closure, name)
        else:
            print_closure(closure, function, asked.list)


if __name__ == "__main__":
    main()
