#!/usr/bin/env python3
"""Writes the order sheets of the test program test_plan, and what it has to print for them by the second program.

    python3 tests/plan/make.py

Run it from the project's root, with target/second built (tests/second/README.md). The sheets go to crates/test_plan/data,
the expected output to crates/test_plan/stdout. Most are the dairy example with one thing changed.
"""

import importlib.util
import pathlib
import subprocess

FOLDER = pathlib.Path("crates/test_plan")
RECORD = 27

spec = importlib.util.spec_from_file_location("make", "examples/make.py")
make = importlib.util.module_from_spec(spec)
spec.loader.exec_module(make)


def example(name):
    return pathlib.Path(f"examples/{name}.order").read_bytes()


def changed(sheet, place, value):
    return sheet[:place] + bytes([value]) + sheet[place + 1 :]


def order(gate, cell):
    return make.order_sheet("test_plan", "\n".join(["gate", *gate, "cell", *cell]))


dairy = example("dairy")
largest = order(["allow"] * 64, ["allow"] * 256)
comb = [f"allow source {2 * i}" for i in range(1, 32)] + ["deny"] * 31
gate_end = 2 + 3 * RECORD  # behind the three gate rules of dairy

SHEETS = {
    "dairy": dairy,
    "plant": example("plant"),
    "refused": example("refused"),  # 6: 1,331 pieces
    "empty": b"",  # 3
    "largest": largest,  # 8,644 bytes
    "longer": largest + b"more",  # 3
    "no_rule": changed(dairy, 1, 0),  # 2: section A has no rule
    "too_many_rules": changed(dairy, 1, 65),  # 2: section A has 65 rules
    "cut_off": dairy[:-1],  # 3
    "left_over": dairy + b"\0",  # 3
    "low_above_high": changed(dairy, 2 + 24, 7),  # 4: the first protocol from 7 to 6
    "action_2": changed(dairy, 2 + RECORD - 1, 2),  # 4
    "not_full": changed(dairy, gate_end - 2, 254),  # 5: the last gate rule's protocol ends at 254
    "too_many_boxes": order(comb, ["allow"] * 33),  # 7: 992 boxes
}

printed = b""
for name, sheet in SHEETS.items():
    (FOLDER / "data" / f"{name}.order").write_bytes(sheet)
    plan = subprocess.run(["target/second", "plan"], input=sheet, stdout=subprocess.PIPE, check=True).stdout
    printed += f"{name}.order\n".encode() + plan
(FOLDER / "stdout").write_bytes(printed)
