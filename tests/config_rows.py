#!/usr/bin/env python3
"""Faults of each section of config.mcy, each at its line: a part of the cases of crates/mcy_cases, worked out by hand.

    tests/config_rows.py [FOLDER]      a part of the table of crates/mcy_cases

A row is a project with one line more, in front of the named one, and the fault that is told of it. `~` stands for the end of a line.
"""


from lib import tables

NOTE = "# Each section has its faults, at their lines."
CONFIG = ['[options]', 'size 10', 'modes inv', 'tags CHANGED NOCHANGE', '[script]', 'read_verilog g.v', 'prep -top g', '[files]', 'g.v',
          '[logic]', 'tag("CHANGED")', '[report]', 'print("%d" % tags("CHANGED"))', '[test same]', 'eq', 'expect PASS FAIL']

given, told = [NOTE], [NOTE]


def bad_line(fault, before, line, status=3):
    """The project with one line more, before this line of it."""
    at = CONFIG.index(before) if before else len(CONFIG)
    config = "~".join([*CONFIG[:at], line, *CONFIG[at:]]) + "~"
    given.extend(["new", f"hold config.mcy {config}", "fail-keeper 0 0", "call init"])
    told.extend(["> init", f"status {status}", f"mcy: config.mcy:{at + 1}: {fault}", "0 items, 0 mutations"])


bad_line("BadLine", '[script]', 'modes')
bad_line("BadLine", '[script]', 'seed one')
bad_line("OutOfRange", '[script]', 'seed 18446744073709551616')
bad_line("Repeated", '[script]', 'modes inv')
bad_line("UnknownKey", '[script]', 'select inv')
bad_line("BadLine", '[files]', 'read_verilog')
bad_line("UnsupportedCommand", '[files]', 'read_verilog -sv g.v')
bad_line("Repeated", '[files]', 'prep -top h')
bad_line("BadLine", '[logic]', 'h.v k.v')
bad_line("Repeated", '[logic]', 'rtl/g.v')
bad_line("UnknownTest", '[report]', 'assert result("other") == "PASS"', status=4)
bad_line("UnknownTag", '[test same]', 'print("%d" % tags("OTHER"))', status=4)
bad_line("Repeated", 'expect PASS FAIL', 'sim g_tb tb.v')
bad_line("BadLine", 'expect PASS FAIL', 'pass GOOD')
bad_line("BadLine", None, 'expect PASS HANG')
bad_line("Repeated", None, 'expect PASS')
bad_line("UnsupportedCommand", None, 'run true')
bad_line("Repeated", None, '[test same]')
bad_line("Repeated", None, '[options]')
bad_line("BadLine", None, '[tests]')

if __name__ == "__main__":
    tables.save_part("mcy_cases", given, told)
