#!/usr/bin/env python3
"""Write the cases of the sheet check, reading and writing.

    make_cases.py

writes crates/sheet_cases/stdin and crates/sheet_cases/stdout, and prints how
often each reason comes up. One case a line:

    LABEL packed HEX      ->  LABEL read RESULT check RESULT
    LABEL records HEX     ->  LABEL check RESULT write RESULT

HEX has six bytes an entry for records, and is "-" for no bytes. A RESULT is
"ok" (read: "ok N", N entries; write: "ok HEX", into a buffer of 4096 bytes)
or "refused NUMBER PLACE".

The cases of the table state what they expect by hand, and the model must
agree. The pseudo-random ones, from a fixed seed, take it from the model.
"""
import os
import random
import re
from collections import Counter

import sheet_model as model

ROOM = 4096
SEED = 20260
RANDOM_SHEETS = 150
HERE = os.path.dirname(os.path.abspath(__file__))
TARGET = os.path.join(HERE, "..", "crates", "sheet_cases")

inputs = []
outputs = []
labels = set()
reasons = Counter()


# ---------------------------------------------------------------- writing cases

def result_of(fault):
    if fault is None:
        return "ok"
    return f"refused {fault[0]} {fault[1]}"


def hex_of(data):
    return bytes(data).hex().upper() or "-"


def emit(label, form, data, answer):
    assert re.fullmatch(r"[A-Za-z0-9-]+", label), label
    assert label not in labels, label
    labels.add(label)
    inputs.append(f"{label} {form} {hex_of(data)}")
    outputs.append(f"{label} {answer}")
    found = set(int(n) for n in re.findall(r"refused (\d+)", answer))
    for number in found or {0}:
        reasons[number] += 1


def emit_packed(label, data):
    """Answers (read result, check result)."""
    answer = model.read(data)
    if answer[0] == "ok":
        read = f"ok {answer[1]}"
    else:
        read = result_of(answer[1:])
    check = result_of(model.check(model.meaning(data)))
    emit(label, "packed", data, f"read {read} check {check}")
    return read, check


def emit_records(label, entries):
    """Answers the check result."""
    check = result_of(model.check(entries))
    answer = model.write(entries, ROOM)
    if answer[0] == "ok":
        write = f"ok {hex_of(answer[1])}"
        assert model.read(answer[1]) == ("ok", len(entries)), label
        assert model.meaning(answer[1]) == entries, label
    else:
        write = result_of(answer[1:])
    data = [byte for entry in entries for byte in entry]
    emit(label, "records", data, f"check {check} write {write}")
    return check


def bare(entries):
    """The commands with only their own operands, without an end byte and
    without any check; an unknown command stands alone."""
    out = bytearray()
    for entry in entries:
        out += bytes(entry[:1 + model.OPERANDS.get(entry[0], 0)])
    return bytes(out)


def entries_of(text):
    """Entries parted by ';', each filled up with zeros to six bytes."""
    entries = []
    for part in text.split(";"):
        if part.strip():
            entry = bytes.fromhex(part)
            assert len(entry) <= 6, part
            entries.append(tuple(entry) + (0,) * (6 - len(entry)))
    return entries


def stated(text):
    """'ok', or 'refused 6 2' from '6 2'."""
    return text if text.startswith("ok") else f"refused {text}"


def sheet(label, text, expected):
    """A sheet in records and, where that says the same, packed."""
    entries = entries_of(text)
    found = emit_records(label + "-r", entries)
    assert found == stated(expected), (label, found, expected)
    data = bare(entries) + b"\xff"
    if model.meaning(data) == entries:
        read, check = emit_packed(label + "-p", data)
        assert check == stated(expected), (label, check, expected)
        if expected == "ok":
            assert read == f"ok {len(entries)}", label
        else:
            assert read == check, label


def packed(label, text, read, check):
    """Bytes, with both results stated."""
    found = emit_packed(label, bytes.fromhex(text))
    assert found == (stated(read), stated(check)), (label, found)


def many(entry, times):
    return "; ".join([entry] * times)


# ---------------------------------------------------------------- the table

# Arities: 0 zone names, 1 segments, 2 ticks, 3 tuple of 1 and 1, 4 binding of
# 0 over 1. Constructors: 0 Use, 1 Hold, 2 Then, 3 Local. Variables: 0 x, 1 y,
# 2 X, 3 Y, 4 d, 5 e. Rows 0 to 5: these variables. 21 entries.
ARITIES = "01; 02; 03; 04 02 01 01; 05 00 01"
CONSTRUCTORS = "10 01 00; 10 01 02; 10 01 03; 10 01 04"
VARIABLES = "20 00; 20 00; 20 01; 20 01; 20 02; 20 02"
ROWS = "30 00; 30 01; 30 02; 30 03; 30 04; 30 05"
ZONE = "; ".join([ARITIES, CONSTRUCTORS, VARIABLES, ROWS])
MORE_ROWS = (
    "31 00 00; 31 00 01; 31 01 04; 32 03 02 03; 31 02 09; 33 04 00 02; "
    "33 04 01 03; 33 04 00 07; 33 04 01 06; 31 03 0B; 31 03 0D"
)
# 64 arities, 32 constructors, 64 variables and 255 rows: all but the last row
# of a full sheet. Arity 63 binds names of 3 over data arity 5, constructor 31
# takes it, and row 254 has it.
ALMOST_FULL = "; ".join([
    "01; 01; 01; 01; 03; 02; " + many("04 04 00 04 05 01", 57) + "; 05 03 05",
    many("10 05 04", 31) + "; 10 05 3F",
    many("20 03", 10) + "; " + many("20 05", 54),
    many("30 0A", 254) + "; 33 3F 00 00",
])


def byte_cases():
    packed("end-alone", "FF", "ok 0", "ok")
    packed("no-bytes", "", "1 0", "ok")
    packed("end-twice", "FF FF", "3 1", "ok")
    packed("tail-entry", "FF 01", "3 1", "ok")
    packed("tail-zero", "01 FF 00", "3 2", "ok")
    packed("tail-unknown", "01 FF 99", "3 2", "ok")
    packed("tail-cut", "01 FF 04 00", "3 2", "ok")
    packed("tail-long", "01 20 00 FF" + "01" * 100, "3 4", "ok")
    packed("tail-question", "01 20 00 20 00 30 00 30 01 FF 41 00 01 4F 00 00 00 02", "3 10", "ok")
    packed("no-tail", "01 20 00 20 00 30 00 30 01 FF", "ok 5", "ok")
    packed("end-as-operand", "01 20 FF FF", "6 1", "6 1")
    packed("end-as-operand-cut", "01 20 FF", "1 3", "6 1")
    packed("end-as-operands", "04 FF FF FF FF FF FF", "5 0", "5 0")
    packed("no-end-after-name", "01", "1 1", "ok")
    packed("no-end-after-two", "01 20 00", "1 3", "ok")
    packed("no-end-barren", "02", "1 1", "9 0")
    # A command cut after each number of its operands; whole, it is another case.
    widths = [
        ("04", "00 00 00 00 00", ""), ("05", "00 00", "01"), ("10", "00 01", "02 03"),
        ("20", "00", "01"), ("30", "00", "01 20 00"),
        ("31", "00 00", "02 03 10 00 01 20 01 30 00"),
        ("32", "00 00 00 00 00", "04 00 00 00 00 00"), ("33", "01 00 00", "01 05 00 00 20 00 30 00"),
    ]
    for command, operands, before in widths:
        front = bytes.fromhex(before)
        operand_bytes = bytes.fromhex(operands)
        check = result_of(model.check(model.meaning(front)))
        assert check == ("refused 9 0" if command == "10" else "ok")
        for kept in range(len(operand_bytes)):
            text = before + command + operand_bytes[:kept].hex()
            packed(f"cut-{command}-{kept}", text, f"1 {len(front)}", check.replace("refused ", ""))
        whole = before + command + operands + "FF"
        count = len(model.meaning(bytes.fromhex(whole)))
        packed(f"whole-{command}", whole, f"ok {count}", "ok")
    # Bytes that are no command of a sheet.
    for byte in ["00", "06", "0F", "11", "1F", "21", "2F", "34", "3F", "40", "41", "42", "4F", "80", "FE"]:
        packed(f"unknown-{byte}", f"01 {byte} FF", "2 1", "ok")
    packed("unknown-first", "99", "2 0", "ok")
    packed("unknown-last", "01 20 00 99", "2 3", "ok")
    packed("unknown-then-tail", "01 99 FF 01", "2 1", "ok")
    packed("unknown-then-cut", "99 04", "2 0", "ok")
    packed("unknown-as-operand", "01 20 99 FF", "6 1", "6 1")
    # A byte fault after a fault of the sheet: reading names the byte.
    packed("sheet-then-unknown", "01 20 05 99 FF", "2 3", "6 1")
    packed("sheet-then-cut", "01 20 05", "1 3", "6 1")
    packed("sheet-then-cut-inside", "01 20 05 10 00", "1 3", "6 1")
    packed("sheet-then-tail", "01 20 05 FF 00", "3 4", "6 1")
    packed("sheet-no-byte-fault", "01 20 05 FF", "6 1", "6 1")
    packed("order-then-unknown", "20 00 01 00 FF", "2 3", "6 0")
    packed("barren-then-tail", "02 FF FF", "3 2", "9 0")
    packed("unknown-hides-order", "01 20 00 99 01 FF", "2 3", "ok")
    packed("padding-then-cut", "04 00 01 00 00 00 04", "1 6", "8 0")
    packed("cut-hides-barren", "02 03 10 00", "1 2", "9 0")


def unknown_cases():
    for byte in ["00", "06", "0F", "11", "21", "34", "40", "41", "42", "4F", "FE", "FF"]:
        sheet(f"record-unknown-{byte}", f"01; {byte}; 20 00", "2 1")
    sheet("record-known", "01; 03; 20 00", "ok")
    sheet("record-unknown-padded", "06 01 02 03 04 05", "2 0")
    sheet("record-unknown-after-row", "01; 20 00; 30 00; 00", "2 3")
    sheet("record-unknown-second", "01; 20 07; 99", "6 1")


def order_cases():
    sheet("order-arity-after-constructor", "02; 03; 10 00 01; 01", "4 3")
    sheet("order-arity-before-constructor", "02; 03; 01; 10 00 01", "ok")
    sheet("order-arity-after-variable", "01; 20 00; 01", "4 2")
    sheet("order-arity-before-variable", "01; 01; 20 00", "ok")
    sheet("order-arity-after-row", "01; 20 00; 30 00; 03", "4 3")
    sheet("order-tuple-after-row", "01; 20 00; 30 00; 04", "4 3")
    sheet("order-binding-after-variable", "01; 20 00; 05 00 00", "4 2")
    sheet("order-data-after-variable", "01; 20 00; 02", "4 2")
    sheet("order-constructor-after-variable", "02; 03; 10 00 01; 20 01; 10 00 01", "4 4")
    sheet("order-constructor-before-variable", "02; 03; 10 00 01; 10 00 01; 20 01", "ok")
    sheet("order-constructor-after-row", "02; 03; 10 00 01; 20 01; 30 00; 10 00 01", "4 5")
    sheet("order-variable-after-row", "01; 20 00; 30 00; 20 00", "4 3")
    sheet("order-variable-before-row", "01; 20 00; 20 00; 30 00", "ok")
    sheet("order-row-after-row", "01; 20 00; 30 00; 30 00", "ok")
    sheet("order-row-first", "04; 32 00", "ok")
    sheet("order-arity-after-row-of-tuple", "04; 32 00; 04", "4 2")


def limit_cases():
    sheet("arities-64", many("03", 64), "ok")
    sheet("arities-65", many("03", 65), "5 64")
    sheet("arities-65-data", "03; " + many("03", 63) + "; 02", "5 64")
    sheet("arities-65-tuple", many("03", 64) + "; 04", "5 64")
    sheet("arities-65-binding", "01; " + many("03", 63) + "; 05 00 01", "5 64")
    sheet("arities-65-name", many("03", 64) + "; 01", "5 64")
    sheet("names-4", many("01", 4), "ok")
    sheet("names-5", many("01", 5), "5 4")
    sheet("names-4-data", many("01", 4) + "; 03; 04 01 03", "ok")
    sheet("names-5-apart", "01; 03; 01; 03; 01; 03; 01; 03; 01", "5 8")
    sheet("constructors-32", "02; 03; " + many("10 00 01", 32), "ok")
    sheet("constructors-33", "02; 03; " + many("10 00 01", 33), "5 34")
    sheet("variables-64", "03; " + many("20 00", 64), "ok")
    sheet("variables-65", "03; " + many("20 00", 65), "5 65")
    sheet("variables-65-name", "03; 01; " + many("20 00", 64) + "; 20 01", "5 66")
    sheet("name-variables-10", "01; " + many("20 00", 10), "ok")
    sheet("name-variables-11", "01; " + many("20 00", 11), "5 11")
    sheet("name-variables-10-tick", "01; 03; " + many("20 00", 10) + "; 20 01", "ok")
    sheet("name-variables-11-apart", "01; 03; " + many("20 00; 20 01", 10) + "; 20 00", "5 22")
    sheet("name-variables-10-two", "01; 01; " + many("20 00; 20 01", 5), "ok")
    sheet("name-variables-11-two", "01; 01; " + many("20 00; 20 01", 5) + "; 20 01", "5 12")
    sheet("name-variables-10-absent", "01; " + many("20 00", 10) + "; 20 01", "6 11")
    sheet("rows-256", "01; 20 00; " + many("30 00", 256), "ok")
    sheet("rows-257", "01; 20 00; " + many("30 00", 257), "5 258")
    sheet("rows-257-tuple", "04; " + many("32 00", 257), "5 257")
    sheet("rows-257-apply", "02; 03; 10 00 01; 20 01; " + many("30 00", 256) + "; 31 00 00", "5 260")
    sheet("rows-257-bind", "01; 05 00 00; 20 00; " + many("30 00", 256) + "; 33 01 00 00", "5 259")
    sheet("parts-4", "01; 04 04 00 00 00 00", "ok")
    sheet("parts-5", "01; 04 05 00 00 00 00", "5 1")
    sheet("parts-255", "01; 04 FF 00 00 00 00", "5 1")
    sheet("longest", "; ".join([many("04", 63), "02", many("10 3F 00", 32), many("20 00", 64),
                                many("32 00", 256)]), "ok")
    sheet("full", ALMOST_FULL + "; 31 1F FE", "ok")
    sheet("full-and-one-more", ALMOST_FULL + "; 31 1F FE; 30 00", "5 416")
    sheet("full-last-constructor-absent", ALMOST_FULL + "; 31 20 FE", "6 415")
    sheet("full-last-row-absent", ALMOST_FULL + "; 31 1F FF", "6 415")
    sheet("full-last-ill", ALMOST_FULL + "; 31 1F FD", "7 415")


def arity_operand_cases():
    for command, word in [("01", "name"), ("03", "tick")]:
        sheet(f"{word}-plain", command, "ok")
        for place in range(5):
            operands = ["00"] * 5
            operands[place] = "01"
            sheet(f"{word}-padding-{place + 1}", f"{command} {' '.join(operands)}", "8 0")
    sheet("data-plain", "02; 03; 10 00 01", "ok")
    for place in range(5):
        operands = ["00"] * 5
        operands[place] = "FF"
        sheet(f"data-padding-{place + 1}", f"02 {' '.join(operands)}; 03; 10 00 01", "8 0")
    # Tuples of each width: all parts there, each part absent, each spare operand not 0.
    for w in range(5):
        parts = ["00"] * 4
        sheet(f"tuple-{w}", f"03; 04 0{w} {' '.join(parts)}", "ok")
        for place in range(4):
            operands = list(parts)
            operands[place] = "01"
            expected = "6 1" if place < w else "8 1"
            sheet(f"tuple-{w}-operand-{place + 1}", f"03; 04 0{w} {' '.join(operands)}", expected)
    sheet("tuple-itself-first", "04 01 00", "6 0")
    sheet("tuple-later-part", "03; 04 01 02; 03", "6 1")
    sheet("tuple-spare-lawful-number", "03; 03; 04 01 00 01", "8 2")
    sheet("tuple-no-parts-at-all", "04", "ok")
    sheet("binding-plain", "01; 03; 05 00 01", "ok")
    sheet("binding-over-names", "01; 05 00 00", "ok")
    sheet("binding-of-tick", "01; 03; 05 01 00", "7 2")
    sheet("binding-of-data", "01; 02; 05 01 00; 10 01 00", "7 2")
    sheet("binding-of-tuple", "01; 04; 05 01 00", "7 2")
    sheet("binding-of-binding", "01; 05 00 00; 05 01 00", "7 2")
    sheet("binding-of-absent", "01; 03; 05 02 01", "6 2")
    sheet("binding-over-absent", "01; 03; 05 00 02", "6 2")
    sheet("binding-both-absent", "01; 03; 05 FF FF", "6 2")
    sheet("binding-later", "01; 05 00 02; 03", "6 1")
    for place in range(3):
        operands = ["00"] * 3
        operands[place] = "01"
        sheet(f"binding-padding-{place + 3}", f"01; 03; 05 00 01 {' '.join(operands)}", "8 2")


def middle_operand_cases():
    sheet("constructor-plain", "01; 02; 03; 10 01 00", "ok")
    sheet("constructor-of-itself-too", "01; 02; 03; 10 01 00; 10 01 01", "ok")
    sheet("constructor-of-name", "01; 02; 03; 10 00 00", "7 3")
    sheet("constructor-of-tick", "01; 02; 03; 10 02 00", "7 3")
    sheet("constructor-of-tuple", ARITIES + "; 10 03 00", "7 5")
    sheet("constructor-of-binding", ARITIES + "; 10 04 00", "7 5")
    sheet("constructor-s-absent", "01; 02; 03; 10 03 00", "6 3")
    sheet("constructor-a-absent", "01; 02; 03; 10 01 03", "6 3")
    for place in range(3):
        operands = ["00"] * 3
        operands[place] = "01"
        sheet(f"constructor-padding-{place + 3}", f"01; 02; 10 01 00 {' '.join(operands)}", "8 2")
    sheet("variable-plain", "01; 03; 20 01", "ok")
    sheet("variable-absent", "01; 03; 20 02", "6 2")
    sheet("variable-alone", "20 00", "6 0")
    for place in range(4):
        operands = ["00"] * 4
        operands[place] = "01"
        sheet(f"variable-padding-{place + 2}", f"01; 20 00 {' '.join(operands)}", "8 1")


def row_operand_cases():
    sheet("zone", ZONE, "ok")
    sheet("zone-more", ZONE + "; " + MORE_ROWS, "ok")
    # 30
    sheet("row-variable-plain", "01; 20 00; 30 00", "ok")
    sheet("row-variable-absent", "01; 20 00; 30 01", "6 2")
    sheet("row-variable-none", "30 00", "6 0")
    for place in range(4):
        operands = ["00"] * 4
        operands[place] = "01"
        sheet(f"row-variable-padding-{place + 2}", f"01; 20 00; 30 00 {' '.join(operands)}", "8 2")
    # After the zone sheet: 21 entries, 6 rows.
    after = [
        ("apply-use-x", "31 00 00", "ok"),
        ("apply-hold-d", "31 01 04", "ok"),
        ("apply-use-segment", "31 00 02", "7 21"),
        ("apply-hold-x", "31 01 00", "7 21"),
        ("apply-then-segment", "31 02 02", "7 21"),
        ("apply-constructor-absent", "31 04 00", "6 21"),
        ("apply-row-itself", "31 00 06", "6 21"),
        ("apply-row-absent", "31 00 FF", "6 21"),
        ("apply-both-absent", "31 04 06", "6 21"),
        ("apply-padding-3", "31 00 00 01", "8 21"),
        ("apply-padding-4", "31 00 00 00 01", "8 21"),
        ("apply-padding-5", "31 00 00 00 00 01", "8 21"),
        ("tuple-row-plain", "32 03 02 03", "ok"),
        ("tuple-row-same-twice", "32 03 02 02", "ok"),
        ("tuple-row-first-ill", "32 03 00 02", "7 21"),
        ("tuple-row-second-ill", "32 03 02 00", "7 21"),
        ("tuple-row-both-ill", "32 03 04 00", "7 21"),
        ("tuple-row-first-absent", "32 03 06 02", "6 21"),
        ("tuple-row-second-absent", "32 03 02 06", "6 21"),
        ("tuple-row-arity-absent", "32 05 02 03", "6 21"),
        ("tuple-row-arity-absent-rows-too", "32 05 FF FF FF FF", "6 21"),
        ("tuple-row-spare-4", "32 03 02 03 01", "8 21"),
        ("tuple-row-spare-5", "32 03 02 03 00 01", "8 21"),
        ("tuple-row-spare-row", "32 03 02 03 02 02", "8 21"),
        ("tuple-row-of-name", "32 00 00", "7 21"),
        ("tuple-row-of-name-rows-absent", "32 00 FF FF FF FF", "7 21"),
        ("tuple-row-of-data-rows-absent", "32 01 06 06", "7 21"),
        ("tuple-row-of-tick-rows-absent", "32 02 FF FF", "7 21"),
        ("tuple-row-of-binding", "32 04 00 02", "7 21"),
        ("tuple-row-of-binding-rows-absent", "32 04 FF FF", "7 21"),
        ("bind-row-plain", "33 04 00 02", "ok"),
        ("bind-row-y-over-y", "33 04 01 03", "ok"),
        ("bind-row-over-name", "33 04 00 00", "7 21"),
        ("bind-row-over-tick", "33 04 00 04", "7 21"),
        ("bind-row-segment", "33 04 02 02", "7 21"),
        ("bind-row-tick", "33 04 04 02", "7 21"),
        ("bind-row-of-tuple", "33 03 00 02", "7 21"),
        ("bind-row-of-name", "33 00 00 02", "7 21"),
        ("bind-row-of-data", "33 01 00 02", "7 21"),
        ("bind-row-of-tick-arity", "33 02 00 02", "7 21"),
        ("bind-row-arity-absent", "33 05 00 02", "6 21"),
        ("bind-row-variable-absent", "33 04 06 02", "6 21"),
        ("bind-row-row-itself", "33 04 00 06", "6 21"),
        ("bind-row-wrong-kind-variable-absent", "33 03 06 02", "6 21"),
        ("bind-row-wrong-kind-row-absent", "33 03 00 06", "6 21"),
        ("bind-row-wrong-kind-padded", "33 03 00 02 01", "7 21"),
        ("bind-row-padding-4", "33 04 00 02 01", "8 21"),
        ("bind-row-padding-5", "33 04 00 02 00 01", "8 21"),
    ]
    for label, entry, expected in after:
        sheet(label, ZONE + "; " + entry, expected)
    # Tuple rows of each width: 0 names, 1 ticks, 2 the tuple; rows 0 of names, 1 of ticks.
    front = "01; 03; 04 0{} {}; 20 00; 20 01; 30 00; 30 01; "
    for w, parts, row, expected in [
        (0, "", "", "ok"), (0, "", "01", "8 7"), (0, "", "00 00 00 01", "8 7"),
        (0, "", "FF", "8 7"), (1, "01", "01", "ok"), (1, "01", "00", "7 7"), (1, "01", "02", "6 7"),
        (1, "01", "01 01", "8 7"), (3, "00 01 00", "00 01 00", "ok"),
        (3, "00 01 00", "00 01 01", "7 7"), (3, "00 01 00", "00 01 02", "6 7"),
        (3, "00 01 00", "00 01 00 01", "8 7"), (4, "01 01 00 01", "01 01 00 01", "ok"),
        (4, "01 01 00 01", "01 01 00 00", "7 7"), (4, "01 01 00 01", "01 01 00 02", "6 7"),
        (4, "01 01 00 01", "02 00 00 00", "6 7"), (4, "01 01 00 01", "00 00 00 FF", "6 7"),
    ]:
        label = f"width-{w}-row-{row.replace(' ', '-') or 'none'}"
        sheet(label, front.format(w, parts) + f"32 02 {row}", expected)
    # Two arities are the same only when their numbers are.
    twins = "02; 03; 03; 10 00 01; 20 01; 20 02; 30 00; 30 01; "
    sheet("twin-ticks-right", twins + "31 00 00", "ok")
    sheet("twin-ticks-wrong", twins + "31 00 01", "7 8")
    names = "01; 01; 03; 05 01 02; 20 00; 20 01; 20 02; 30 02; "
    sheet("two-name-arities-right", names + "33 03 01 00", "ok")
    sheet("two-name-arities-wrong", names + "33 03 00 00", "7 8")
    tuples = "03; 04 01 00; 04 01 00; 02; 10 03 01; 20 00; 30 00; 32 01 00; 32 02 00; "
    sheet("twin-tuples-right", tuples + "31 00 01", "ok")
    sheet("twin-tuples-wrong", tuples + "31 00 02", "7 9")


def two_fault_cases():
    # One entry with two faults: the smaller number.
    sheet("order-before-crowded", "03; 20 00; 04 05", "4 2")
    sheet("order-before-absent", "03; 20 00; 10 09 09", "4 2")
    sheet("order-before-padding", "03; 20 00; 03 01", "4 2")
    sheet("order-before-fifth-name", many("01", 4) + "; 20 00; 01", "4 5")
    sheet("crowded-before-absent", "03; 04 05 09 09 09 09", "5 1")
    sheet("crowded-before-padding", many("01", 4) + "; 01 00 01", "5 4")
    sheet("crowded-arity-before-absent", many("03", 64) + "; 04 01 40", "5 64")
    sheet("crowded-arity-before-ill", many("03", 64) + "; 05 00 00", "5 64")
    sheet("crowded-constructor-before-ill", "02; 03; " + many("10 00 01", 32) + "; 10 01 01", "5 34")
    sheet("crowded-variable-before-absent", "03; " + many("20 00", 64) + "; 20 01", "5 65")
    sheet("crowded-name-variable-before-padding", "01; " + many("20 00", 10) + "; 20 00 01", "5 11")
    sheet("crowded-row-before-absent", "01; 20 00; " + many("30 00", 256) + "; 30 01", "5 258")
    sheet("absent-before-ill-binding", "01; 03; 05 01 02", "6 2")
    sheet("absent-before-ill-constructor", "01; 02; 03; 10 00 03", "6 3")
    sheet("absent-before-padding-tuple", "03; 04 01 01 01", "6 1")
    sheet("absent-before-padding-variable", "03; 20 01 01", "6 1")
    sheet("absent-before-padding-row", "03; 20 00; 30 01 01", "6 2")
    sheet("absent-before-ill-tuple-row", ZONE + "; 32 03 00 06", "6 21")
    sheet("absent-before-padding-tuple-row", ZONE + "; 32 03 02 06 01", "6 21")
    sheet("absent-before-ill-bind-row", ZONE + "; 33 04 02 06", "6 21")
    sheet("absent-before-padding-apply", ZONE + "; 31 04 00 01", "6 21")
    sheet("ill-before-padding-binding", "01; 03; 05 01 01 01", "7 2")
    sheet("ill-before-padding-constructor", "01; 03; 10 01 01 00 01", "7 2")
    sheet("ill-before-padding-apply", ZONE + "; 31 00 02 00 01", "7 21")
    sheet("ill-before-padding-tuple-row", ZONE + "; 32 03 00 02 01", "7 21")
    sheet("ill-before-padding-bind-row", ZONE + "; 33 04 00 00 00 01", "7 21")
    # Two faulty entries: the first.
    sheet("first-padding-then-unknown", "01 01; 99", "8 0")
    sheet("first-padding-then-absent", "01; 04 00 01; 20 09", "8 1")
    sheet("first-absent-then-order", "01; 20 05; 01", "6 1")
    sheet("first-ill-then-crowded", "01; 03; 05 01 00; 04 05", "7 2")
    sheet("first-order-then-absent", "01; 20 00; 01; 30 09", "4 2")
    sheet("first-crowded-then-order", "04 05; 20 00; 01", "5 0")
    # Faults of entries come before barren arities.
    sheet("barren-after-absent", "02; 20 05", "6 1")
    sheet("barren-after-padding", "02; 03; 20 01 01", "8 2")
    sheet("barren-after-last-entry", "02; 01; 20 01; 30 01", "6 3")
    sheet("barren-else-fine", "02; 01; 20 01; 30 00", "9 0")


def barren_cases():
    sheet("barren-alone", "02", "9 0")
    sheet("barren-needs-itself", "02; 10 00 00", "9 0")
    sheet("barren-itself-or-tick", "02; 03; 10 00 00; 10 00 01", "ok")
    sheet("barren-each-other", "02; 02; 10 00 01; 10 01 00", "9 0")
    sheet("barren-each-other-or-tick", "02; 02; 03; 10 00 01; 10 01 00; 10 01 02", "ok")
    sheet("barren-second", "01; 02; 02; 10 01 00; 10 02 02", "9 2")
    sheet("barren-first", "01; 02; 02; 10 02 00; 10 01 01", "9 1")
    sheet("barren-second-needs-first", "01; 02; 02; 10 01 01; 10 02 01", "9 1")
    sheet("barren-ring-of-three", "02; 02; 02; 10 00 01; 10 01 02; 10 02 00", "9 0")
    sheet("barren-ring-of-three-left", "03; 02; 02; 02; 10 01 02; 10 02 03; 10 03 01; 10 02 00", "ok")
    sheet("barren-two-apart", "03; 02; 03; 02; 02; 10 03 00", "9 1")
    sheet("barren-two-apart-high", "03; 02; 03; 02; 02; 10 01 00; 10 03 03", "9 3")
    sheet("barren-last-only", "03; 02; 03; 02; 02; 10 01 00; 10 03 01", "9 4")
    sheet("barren-none", "03; 02; 03; 02; 02; 10 01 00; 10 03 01; 10 04 03", "ok")
    sheet("barren-empty-tuple", "04; 02; 10 01 00", "ok")
    sheet("barren-empty-tuple-last", "02; 04; 10 00 01", "ok")
    sheet("barren-tuple-part", "02; 03; 04 02 01 00; 10 00 02", "9 0")
    sheet("barren-tuple-part-else", "02; 03; 04 02 01 00; 10 00 02; 10 00 01", "ok")
    sheet("barren-tuple-of-ticks", "02; 03; 04 04 01 01 01 01; 10 00 02", "ok")
    sheet("barren-tuple-unused-operand", "02; 03; 04 01 01; 10 00 02", "ok")
    sheet("barren-binding-over", "01; 02; 05 00 01; 10 01 02", "9 1")
    sheet("barren-binding-over-else", "01; 02; 05 00 01; 10 01 02; 10 01 00", "ok")
    sheet("barren-binding-over-names", "01; 05 00 00; 02; 10 02 01", "ok")
    sheet("barren-tuple-over-binding", "01; 02; 05 00 01; 04 02 00 02; 02; 10 01 03; 10 04 00", "9 1")
    sheet("barren-later-data-helps", "02; 04 01 00; 02; 03; 10 02 01; 10 00 03", "ok")
    sheet("barren-later-data-helps-not", "02; 04 01 00; 02; 03; 10 02 01; 10 00 02", "9 0")
    up = "; ".join(f"10 {i:02X} {i + 1:02X}" for i in range(32))
    down = "; ".join(f"10 {i:02X} {i + 1:02X}" for i in reversed(range(32)))
    sheet("barren-chain-up", many("02", 32) + "; 03; " + up, "ok")
    sheet("barren-chain-down", many("02", 32) + "; 03; " + down, "ok")
    sheet("barren-chain-up-no-end", many("02", 33) + "; " + up, "9 0")
    ring = "; ".join(f"10 {i:02X} {(i + 1) % 32:02X}" for i in range(32))
    sheet("barren-ring", "; ".join([many("02", 32), ring]), "9 0")
    sheet("barren-too-many", "03; " + many("02", 63) + "; "
          + "; ".join(f"10 {i + 1:02X} {i:02X}" for i in range(32)), "9 33")
    sheet("no-records", "", "ok")


# ---------------------------------------------------------------- pseudo-random sheets

def random_sheet(rng, size):
    """A lawful sheet: entries are proposed group by group and kept where the
    model finds no fault; a tick argument ends each data arity."""
    entries = [(0x01, 0, 0, 0, 0, 0), (0x02, 0, 0, 0, 0, 0), (0x03, 0, 0, 0, 0, 0)]

    def propose(make, tries):
        for _ in range(tries):
            entry = make()
            extended = entries + [tuple(entry) + (0,) * (6 - len(entry))]
            fault = model.check(extended)
            if fault is None or fault[0] == model.BARREN:
                entries.append(extended[-1])

    def below(count):
        return rng.randrange(max(1, count))

    def arity():
        a = len(entries)
        kind = rng.randrange(8)
        if kind < 2:
            return [kind + 1]
        if kind == 2:
            return [3]
        if kind < 6:
            w = rng.randrange(5)
            return [4, w] + [below(a) for _ in range(w)]
        return [5, below(a), below(a)]

    propose(arity, rng.randrange(1, size))
    a = len(entries)
    data = [i for i in range(a) if entries[i][0] == 0x02]
    for i in data:
        entries.append((0x10, i, 2, 0, 0, 0))
    propose(lambda: [0x10, rng.choice(data), below(a)], rng.randrange(size))
    c = len(entries) - a
    propose(lambda: [0x20, below(a)], rng.randrange(1, 2 * size))
    v = len(entries) - a - c

    def row():
        r = len(entries) - a - c - v
        kind = rng.randrange(4)
        if kind == 0 or r == 0:
            return [0x30, below(v)]
        if kind == 1:
            return [0x31, below(c), below(r)]
        if kind == 2:
            t = below(a)
            w = entries[t][1] if entries[t][0] == 0x04 else 0
            return [0x32, t] + [below(r) for _ in range(w)]
        return [0x33, below(a), below(v), below(r)]

    propose(row, rng.randrange(6 * size))
    return entries


def mutate(rng, entries):
    """One byte changed, an entry deleted, doubled or moved, or two swapped."""
    entries = list(entries)
    if not entries:
        return entries
    k = rng.randrange(len(entries))
    way = rng.randrange(10)
    if way < 6:
        entry = list(entries[k])
        used = model.OPERANDS.get(entry[0], 0)
        if way == 0:
            place = 0
        elif way < 4 and used > 0:
            place = 1 + rng.randrange(used)
        else:
            place = rng.randrange(6)
        nearby = (entry[place] + rng.choice([1, 1, 2, 255, 255, 254])) % 256
        entry[place] = rng.choice([nearby, nearby, 0, rng.randrange(256)])
        entries[k] = tuple(entry)
    elif way == 6:
        del entries[k]
    elif way == 7:
        entries.insert(k, entries[k])
    elif way == 8:
        entry = entries.pop(k)
        entries.insert(rng.randrange(len(entries) + 1), entry)
    else:
        j = rng.randrange(len(entries))
        entries[k], entries[j] = entries[j], entries[k]
    return entries


def mutate_bytes(rng, data):
    """Mostly nothing; else one byte changed, deleted or added, or an end cut off."""
    data = bytearray(data)
    way = rng.randrange(10)
    k = rng.randrange(len(data))
    if way == 0:
        data[k] = rng.randrange(256)
    elif way == 1:
        del data[k]
    elif way == 2:
        data.insert(k, rng.choice([0x00, 0x01, 0x20, 0x30, 0xFF]))
    elif way == 3:
        del data[k:]
    elif way == 4:
        data.append(rng.choice([0x00, 0x01, 0x99, 0xFF]))
    return bytes(data)


def random_cases():
    rng = random.Random(SEED)
    zone = entries_of(ZONE + "; " + MORE_ROWS)
    for number in range(RANDOM_SHEETS):
        base = zone if number % 5 == 0 else random_sheet(rng, rng.randrange(3, 12))
        assert model.check(base) is None
        changes = rng.choice([0, 1, 1, 1, 1, 1, 1, 2, 2, 3])
        entries = base
        for _ in range(changes):
            entries = mutate(rng, entries)
        emit_records(f"random-{number}-r", entries)
        emit_packed(f"random-{number}-p", mutate_bytes(rng, bare(entries) + b"\xff"))


# ---------------------------------------------------------------- all of them

def main():
    byte_cases()
    unknown_cases()
    order_cases()
    limit_cases()
    arity_operand_cases()
    middle_operand_cases()
    row_operand_cases()
    two_fault_cases()
    barren_cases()
    table = len(inputs)
    random_cases()
    assert max(len(line) for line in inputs) < 6000
    stdin = "\n".join(inputs) + "\n"
    stdout = "\n".join(outputs) + "\n"
    assert len(stdin) < 400_000
    for number in range(1, 10):
        assert reasons[number] >= 3, number
    os.makedirs(TARGET, exist_ok=True)
    for name, text in [("stdin", stdin), ("stdout", stdout)]:
        with open(os.path.join(TARGET, name), "w", encoding="ascii", newline="\n") as file:
            file.write(text)
    print(f"{len(inputs)} cases: {table} of the table, {len(inputs) - table} pseudo-random")
    print(f"stdin {len(stdin)} bytes, longest line {max(map(len, inputs))}; stdout {len(stdout)} bytes")
    print("cases in which nothing is refused:", reasons[0])
    for number in range(1, 10):
        print(f"cases with reason {number}: {reasons[number]}")


if __name__ == "__main__":
    main()
