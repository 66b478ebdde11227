#!/usr/bin/env python3
"""Writes the cases of batch bytes that crates/ldar_facts_table compares with ldar_facts.

A line has the bytes and what is read from them: `whole USED`, `short` or `bad PLACE`. The fields of each kind, with
their widths and ranges, are listed below independently; the first wrong place follows from what may come after it.
usage: batch_table.py >crates/ldar_facts_table/data/batches.txt
"""
DAYS = [(13_879, 47_481)]
FLAG = (1, [(0, 1)])
COMPONENT = (2, [(1, 60_000)])
UNIT = (1, [(1, 64)])
INSTRUMENT = (2, [(1, 65_535)])
ANY_OR_NONE = (2, [(0, 65_535)])
PPM = (4, [(0, 999_999)])
KNOWN_PPM = (4, [(1, 999_999)])
CLASS = [(1, [(1, 5)]), (1, [(0, 3)]), "plan", (1, [(1, 3)])]
PLANS = {0: (1, [(0, 0)]), 1: (1, [(0, 0)]), 2: (1, [(1, 60)]), 3: (1, [(0, 0)])}
LETTERS = b"-0123456789ABCDEFGHIJKLMNOPQRSTUVWXYZ"

lines = {}  # in order, each once

# For each kind its fields after kind, day and minute, and an example of each.
KINDS = {
    1: ([UNIT, FLAG, "name"], [1, 0, b"CRUDE"]),
    2: ([COMPONENT, UNIT, (1, [(1, 4)]), FLAG, FLAG] + CLASS, [7, 1, 1, 0, 0, 1, 0, 0, 2]),
    3: ([COMPONENT] + CLASS, [7, 2, 2, 12, 3]),
    4: ([COMPONENT], [7]),
    5: ([UNIT, (1, [(0, 1), (3, 3)]), (2, DAYS)], [1, 3, 19_682]),
    6: ([UNIT, (2, [(1, 366)])], [1, 258]),
    7: ([INSTRUMENT, KNOWN_PPM], [1, 500]),
    8: ([INSTRUMENT, KNOWN_PPM, PPM, PPM, PPM], [1, 500, 495, 500, 505]),
    9: ([INSTRUMENT, KNOWN_PPM, PPM, PPM, PPM], [1, 500, 495, 500, 505]),
    10: ([COMPONENT, ANY_OR_NONE, ANY_OR_NONE, (1, [(1, 2)]), PPM, PPM], [7, 1, 3, 1, 520, 20]),
    11: ([COMPONENT, (1, [(0, 2)])], [7, 1]),
    12: ([COMPONENT, FLAG], [7, 1]),
    13: ([COMPONENT, (1, [(0, 5)]), ANY_OR_NONE, (2, [(0, 0)] + DAYS)], [7, 3, 9, 19_802]),
    14: ([COMPONENT], [7]),
    15: ([COMPONENT, (1, [(1, 2)]), FLAG], [7, 2, 1]),
}


def spelled(field, value):
    return value.ljust(12, b"\0") if field == "name" else value.to_bytes(field[0], "big")


def batch(facts, handheld=7, number=12, count=None):
    """Facts given as bytes, after the header of a batch."""
    count = len(facts) if count is None else count
    return b"\x42" + spelled((2,), handheld) + spelled((4,), number) + spelled((2,), count) + b"".join(facts)


def first_wrong(field, value):
    """The place within the field of the first byte that no value in range has after the bytes before it."""
    width, ranges = field
    for place in range(width):
        behind = 256 ** (width - 1 - place)
        least = value // behind * behind
        if not any(low <= least + behind - 1 and least <= high for low, high in ranges):
            return place
    return None


def case(data, want):
    lines.setdefault(f"{data.hex()} {want}")


def accepted(data):
    case(data, f"whole {len(data)}")


def field_cases(field, before, behind):
    """Each end of each range, and one past each end, of the field between these bytes."""
    width, ranges = field
    for low, high in ranges:
        for value in (low, high):
            accepted(before + spelled(field, value) + behind)
    for value in [low - 1 for low, _ in ranges] + [high + 1 for _, high in ranges]:
        if 0 <= value < 256 ** width and not any(low <= value <= high for low, high in ranges):
            case(before + spelled(field, value) + behind, f"bad {len(before) + first_wrong(field, value)}")


def name_cases(before, behind):
    for count in range(1, 13):
        accepted(before + b"B" * count + bytes(12 - count) + behind)
    for byte in range(256):
        good = byte in LETTERS
        first = before + bytes([byte]) + bytes(11) + behind
        later = before + b"A" + bytes([byte]) + bytes(10) + behind
        last = before + b"A" * 11 + bytes([byte]) + behind
        accepted(first) if good else case(first, f"bad {len(before)}")
        accepted(later) if good or byte == 0 else case(later, f"bad {len(before) + 1}")
        accepted(last) if good or byte == 0 else case(last, f"bad {len(before) + 11}")
    for zeros in range(1, 10):
        hidden = b"CR" + bytes(zeros) + b"D" * (10 - zeros)
        case(before + hidden + behind, f"bad {len(before) + 2 + zeros}")


def class_cases(before, behind):
    """The limits of a plan with each designation: only what is unsafe to monitor has months."""
    for designation, plan in PLANS.items():
        field_cases(plan, before + bytes([1, designation]), bytes([1]) + behind)


def fact(kind, day=19_773, minute=600, values=None):
    fields, example = KINDS[kind]
    plan = [PLANS[example[i - 1]] if field == "plan" else field for i, field in enumerate(fields)]
    shown = example if values is None else values
    return spelled((1,), kind) + spelled((2,), day) + spelled((2,), minute) + b"".join(map(spelled, plan, shown))


def kind_cases(kind):
    fields, example = KINDS[kind]
    whole = batch([fact(kind)])
    accepted(whole)
    for count in range(len(whole)):
        case(whole[:count], "short")
    field_cases((2, DAYS), whole[:10], whole[12:])
    field_cases((2, [(0, 1_439)]), whole[:12], whole[14:])
    place = 14
    for i, field in enumerate(fields):
        if field == "plan":
            field = PLANS[example[i - 1]]
        width = 12 if field == "name" else field[0]
        before, behind = whole[:place], whole[place + width:]
        if field == "name":
            name_cases(before, behind)
        elif fields[i] is CLASS[1]:
            # Another designation would change what the plan may be.
            case(before + b"\4" + behind, f"bad {place}")
        else:
            field_cases(field, before, behind)
        if fields[i] is CLASS[0]:
            class_cases(whole[:place], whole[place + 4:])
        place += width


def batch_cases():
    retired = fact(4)
    one = batch([retired])
    for byte in (0, 65, 67, 255):
        case(bytes([byte]) + one[1:], "bad 0")
    for handheld, number in ((0, 0), (65_535, 4_294_967_295), (258, 16_909_060)):
        accepted(batch([retired], handheld, number))
    for count in (1, 2, 511, 512):
        accepted(batch([retired] * count))
    for count in (0, 513, 514, 768, 65_535):
        case(batch([retired] * 2, count=count), f"bad {7 + first_wrong((2, [(1, 512)]), count)}")
    case(batch([retired] * 511, count=512), "short")
    case(one + one, f"whole {len(one)}")
    case(one + b"\xff", f"whole {len(one)}")
    for kind in (0, 16, 255):
        case(batch([bytes([kind]) + retired[1:]]), "bad 9")
        case(batch([retired, bytes([kind]) + retired[1:]]), "bad 16")
    accepted(batch([fact(kind) for kind in KINDS]))


batch_cases()
for each in KINDS:
    kind_cases(each)
print(*lines, sep="\n")
