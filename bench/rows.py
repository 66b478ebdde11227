#!/usr/bin/env python3
"""Writes crates/command_tests/src/views.rt: batches that are docked one after the other, and the view that is then shown.

The views below were worked out by hand from the rule; bench/rule_model.py must give the same.
usage: bench/rows.py >crates/command_tests/src/views.rt, and then rt fmt in that crate
"""
import datetime
import struct
import sys

import rule_model

PLAIN = {"service": "gas", "designation": "none", "plan": 0, "month": 1}
TYPES = ("valve", "pump", "compressor", "relief")
SERVICES = ("gas", "light", "heavy", "vacuum", "under300")
DESIGNATIONS = ("none", "nde", "unsafe", "difficult")
STATES = ("dry", "drips", "leak")
GROUNDS = ("none", "a", "b", "c", "d", "e")


def day(text):
    return (datetime.date.fromisoformat(text) - datetime.date(1970, 1, 1)).days


def fact(kind, on, minute=600, **fields):
    return {"kind": kind, "day": day(on), "minute": minute, **fields}


def unit(number, name, startup):
    return fact("unit", startup, 0, unit=number, older=False, name=name)


def component(number, of, kind, service, begin, **more):
    return fact("component", begin, 0, component=number, unit=of, type=kind, monomer=more.get("monomer", False), replaces=False,
                **{"class": {**PLAIN, "service": service}})


def calibration(on, minute=300):
    return fact("calibration", on, minute, instrument=1, gas=500)


def precision(on, minute=60):
    return fact("precision", on, minute, instrument=1, value=500, readings=(500, 500, 500))


def reading(on, of, ppm, minute=600, background=0, purpose="routine"):
    return fact("reading", on, minute, component=of, instrument=1, operator=1, purpose=purpose, ppm=ppm, background=background)


def delay(on, of, ground, signer=0, expected=None):
    return fact("delay", on, component=of, ground=ground, signer=signer, expected=day(expected) if expected else None)


def class_bytes(c):
    return struct.pack(">BBBB", SERVICES.index(c["service"]) + 1, DESIGNATIONS.index(c["designation"]), c["plan"], c["month"])


BODIES = {
    "unit": (1, lambda f: struct.pack(">BB12s", f["unit"], f["older"], f["name"].encode())),
    "component": (2, lambda f: struct.pack(">HBBBB", f["component"], f["unit"], TYPES.index(f["type"]) + 1, f["monomer"], f["replaces"])
                  + class_bytes(f["class"])),
    "class": (3, lambda f: struct.pack(">H", f["component"]) + class_bytes(f["class"])),
    "election": (5, lambda f: struct.pack(">BBH", f["unit"], f["mode"], f["notified"])),
    "shutdown": (6, lambda f: struct.pack(">BH", f["unit"], f["days"])),
    "calibration": (7, lambda f: struct.pack(">HI", f["instrument"], f["gas"])),
    "precision": (8, lambda f: struct.pack(">HIIII", f["instrument"], f["value"], *f["readings"])),
    "drift": (9, lambda f: struct.pack(">HIIII", f["instrument"], f["value"], *f["readings"])),
    "reading": (10, lambda f: struct.pack(">HHHBII", f["component"], f["instrument"], f["operator"], 1 if f["purpose"] == "routine" else 2,
                                          f["ppm"], f["background"])),
    "visual": (11, lambda f: struct.pack(">HB", f["component"], STATES.index(f["state"]))),
    "attempt": (12, lambda f: struct.pack(">HB", f["component"], f["complete"])),
    "delay": (13, lambda f: struct.pack(">HBHH", f["component"], GROUNDS.index(f["ground"]), f["signer"], f["expected"] or 0)),
    "release": (14, lambda f: struct.pack(">H", f["component"])),
    "retire": (4, lambda f: struct.pack(">H", f["component"])),
    "indication": (15, lambda f: struct.pack(">HBB", f["component"], ("sensor", "evidence").index(f["sort"]) + 1, f["present"])),
}


def spelled(batch):
    text = struct.pack(">BHIH", 0x42, batch["handheld"], batch["number"], len(batch["facts"]))
    for f in batch["facts"]:
        kind, body = BODIES[f["kind"]]
        text += struct.pack(">BHH", kind, f["day"], f["minute"]) + body(f)
    return text


def batch(handheld, number, *facts):
    return {"handheld": handheld, "number": number, "facts": list(facts)}


BEGIN = "2020-01-15"
BASE = [
    batch(0, 1, unit(1, "CRUDE", BEGIN), *(component(n, 1, "valve", "gas", BEGIN) for n in (1, 2, 3, 4)),
          component(5, 1, "pump", "light", BEGIN), component(6, 1, "pump", "light", BEGIN, monomer=True),
          component(7, 1, "pump", "heavy", BEGIN), component(8, 1, "relief", "gas", BEGIN), component(9, 1, "compressor", "gas", BEGIN)),
    batch(1, 1, precision("2024-01-02")),
]
LEAK = [reading("2024-02-20", 1, 620, minute=615)]
FIT_LEAK = [calibration("2024-02-20")] + LEAK
TAG_1 = "1 detected 2024-02-20 attempt 2024-02-25"


def read_once(on, of, ppm):
    return [precision(on), calibration(on), reading(on, of, ppm)]


LATE = [f for on in ("2024-02-10", "2024-03-10", "2024-04-10", "2024-07-10") for f in read_once(on, 30, 10)]
VALVE_30 = batch(0, 2, unit(2, "COKER", "2024-01-15"), component(30, 2, "valve", "gas", "2024-01-15"))
NEW_VALVES = batch(0, 2, unit(2, "COKER", "2024-01-15"), *(component(n, 2, "valve", "gas", "2024-01-15") for n in (30, 31, 32)))
PUMP_41 = batch(0, 2, unit(3, "FLARE", "2024-02-01"), component(41, 3, "pump", "light", "2024-02-18"))
RELIEF_40 = batch(0, 2, unit(3, "FLARE", BEGIN), component(40, 3, "relief", "gas", BEGIN))
ELECTED = batch(0, 2, fact("election", "2024-07-01", 0, unit=1, mode=1, notified=day("2024-04-02")))
QUARTERS = batch(2, 1, *read_once("2024-02-20", 1, 20), *read_once("2024-05-20", 1, 20))
THREE_QUARTERS = batch(2, 1, *(f for on in ("2024-02-20", "2024-05-20", "2024-11-20") for f in read_once(on, 1, 20)))
SHUTDOWN_OF_JUNE = batch(0, 2, fact("shutdown", "2024-06-01", 0, unit=1, days=14))


def seen(on, of, state):
    return fact("visual", on, component=of, state=state)


def drifted(value):
    """A day on which three new valves were read, and the drift at its end."""
    return batch(2, 1, precision("2024-02-01"), calibration("2024-02-20"), reading("2024-02-20", 30, 440), reading("2024-02-20", 31, 441),
                 reading("2024-02-20", 32, 499), fact("drift", "2024-02-20", 900, instrument=1, value=500, readings=(value,) * 3))


def read_again(on, ppm):
    return [calibration(on), reading(on, 1, ppm)]


def tried_again(attempt, on, ppm):
    return [fact("attempt", attempt, component=1, complete=True), *read_again(on, ppm)]


def delayed_then_clean(ground):
    """A leak of valve 1 that is delayed on the next day and read below the limit in two months, without an attempt."""
    return [batch(2, 1, *FIT_LEAK, delay("2024-02-21", 1, ground, 9, "2024-06-10"), *read_again("2024-03-10", 20),
                  *read_once("2024-04-10", 1, 20))]


DRIPS = [seen("2024-02-19", 41, "drips"), calibration("2024-02-22"), reading("2024-02-22", 41, 1_999)]

# The name of a case, its batches after the base, the words, the reply lines except the first two, and the view.
TAGS = [
    ("BELOW", [batch(2, 1, calibration("2024-02-20"), reading("2024-02-20", 1, 499), reading("2024-02-20", 5, 1_999),
                     reading("2024-02-20", 6, 4_999), reading("2024-02-20", 7, 9_999), reading("2024-02-20", 9, 700))],
     "tags 1 2024-02-28", "receipt 2 1 3\n", "tags 1 2024-02-28\nend 0\n"),
    ("AT", [batch(2, 1, calibration("2024-02-20"), reading("2024-02-20", 1, 500), reading("2024-02-20", 5, 2_000),
                  reading("2024-02-20", 6, 5_000), reading("2024-02-20", 7, 10_000))],
     "tags 1 2024-02-28", "receipt 2 1 3\n", "tags 1 2024-02-28\n" + "".join(
         f"{n} detected 2024-02-20 attempt 2024-02-25 - repair 2024-03-06 - tagged\n" for n in (1, 5, 6, 7)) + "end 4\n"),
    ("UNFIT", [batch(2, 1, *LEAK)], "tags 1 2024-02-28", "receipt 2 1 3\n", "tags 1 2024-02-28\nend 0\n"),
    ("FIT_LATER", [batch(2, 1, *LEAK), batch(2, 2, reading("2024-02-21", 2, 20)), batch(2, 3, calibration("2024-02-20"))],
     "tags 1 2024-02-28", "receipt 2 1 3\nreceipt 2 2 4\nreceipt 2 3 5\n", f"tags 1 2024-02-28\n{TAG_1} - repair 2024-03-06 - tagged\nend 1\n"),
    ("CLEAN_TWICE", [batch(2, 1, *FIT_LEAK, fact("attempt", "2024-02-22", component=1, complete=True), calibration("2024-03-06"),
                           reading("2024-03-06", 1, 20), calibration("2024-04-02"), reading("2024-04-02", 1, 20))],
     "tags 1 2024-04-02", "receipt 2 1 3\n", f"tags 1 2024-04-02\n{TAG_1} 2024-02-22 repair 2024-03-06 2024-03-06 removable\nend 1\n"),
    ("NO_SHUTDOWN", [batch(2, 1, *FIT_LEAK, delay("2024-03-01", 1, "a", 9, "2024-06-10"))],
     "tags 1 2024-03-20", "receipt 2 1 3\n", f"tags 1 2024-03-20\n{TAG_1} - repair shutdown - tagged\nend 1\n"),
    ("SHUTDOWN", [batch(2, 1, *FIT_LEAK, delay("2024-03-01", 1, "a", 9, "2024-06-10")),
                  SHUTDOWN_OF_JUNE],
     "tags 1 2024-07-01", "receipt 2 1 3\nreceipt 0 2 4\n", f"tags 1 2024-07-01\n{TAG_1} - repair 2024-06-14 - tagged\nend 1\n"),
    ("TRIED_IN_SHUTDOWN", [batch(2, 1, *FIT_LEAK, delay("2024-03-01", 1, "a", 9, "2024-06-10"),
                                 fact("attempt", "2024-06-05", component=1, complete=False)), SHUTDOWN_OF_JUNE],
     "tags 1 2024-07-01", "receipt 2 1 3\nreceipt 0 2 4\n", f"tags 1 2024-07-01\n{TAG_1} 2024-06-05 repair 2024-06-30 - tagged\nend 1\n"),
    ("DELAYED_TOO_LATE", [batch(2, 1, *FIT_LEAK, delay("2024-03-07", 1, "a", 9, "2024-06-10")), SHUTDOWN_OF_JUNE],
     "tags 1 2024-07-01", "receipt 2 1 3\nreceipt 0 2 4\n", f"tags 1 2024-07-01\n{TAG_1} - repair 2024-03-06 - tagged\nend 1\n"),
    ("DRIP_IS_A_LEAK", [batch(2, 1, seen("2024-03-04", 5, "leak"))], "tags 1 2024-03-05", "receipt 2 1 3\n",
     "tags 1 2024-03-05\n5 detected 2024-03-04 attempt 2024-03-09 - repair 2024-03-19 - tagged\nend 1\n"),
    ("DRY_AGAIN", [batch(2, 1, seen("2024-03-04", 5, "leak"), fact("attempt", "2024-03-06", component=5, complete=True),
                         seen("2024-03-11", 5, "dry"))], "tags 1 2024-03-12", "receipt 2 1 3\n",
     "tags 1 2024-03-12\n5 detected 2024-03-04 attempt 2024-03-09 2024-03-06 repair 2024-03-19 2024-03-11 removable\nend 1\n"),
    ("PUMP_DELAYED", [batch(2, 1, precision("2023-08-31"), calibration("2023-08-31"), reading("2023-08-31", 5, 2_000),
                            delay("2023-09-05", 5, "d", expected="2024-02-20"))],
     "tags 1 2024-02-20", "receipt 2 1 3\n",
     "tags 1 2024-02-20\n5 detected 2023-08-31 attempt 2023-09-05 - repair 2024-02-29 - tagged\nend 1\n"),
]
OTHERS = [
    ("NO_ATTEMPT", [batch(2, 1, *FIT_LEAK, *read_again("2024-02-22", 20))], "tags 1 2024-02-22", "receipt 2 1 3\n",
     f"tags 1 2024-02-22\n{TAG_1} - repair 2024-03-06 - tagged\nend 1\n"),
    ("LEAK_AFTER_ATTEMPT", [batch(2, 1, *FIT_LEAK, *tried_again("2024-02-23", "2024-02-24", 700), *read_again("2024-02-25", 20))],
     "tags 1 2024-02-25", "receipt 2 1 3\n", f"tags 1 2024-02-25\n{TAG_1} 2024-02-23 repair 2024-03-06 - tagged\nend 1\n"),
    ("TRIED_TWICE", [batch(2, 1, *FIT_LEAK, *tried_again("2024-02-23", "2024-02-24", 700), *tried_again("2024-02-26", "2024-02-27", 20))],
     "tags 1 2024-02-28", "receipt 2 1 3\n", f"tags 1 2024-02-28\n{TAG_1} 2024-02-23 repair 2024-03-06 2024-02-27 tagged\nend 1\n"),
    ("PURGED", delayed_then_clean("c"), "tags 1 2024-04-11", "receipt 2 1 3\n",
     f"tags 1 2024-04-11\n{TAG_1} - repair purge 2024-04-10 tagged\nend 1\n"),
    ("ISOLATED", delayed_then_clean("b"), "tags 1 2024-04-11", "receipt 2 1 3\n",
     f"tags 1 2024-04-11\n{TAG_1} - repair isolated - tagged\nend 1\n"),
    ("NO_READING", [VALVE_30], "due 2 2024-02-20", "receipt 0 2 3\n", "due 2 2024-02-20\n30 monthly 2024-02-29 open\nend 1\n"),
    ("QUARTERLY", [VALVE_30, batch(2, 1, *LATE)], "due 2 2024-09-10", "receipt 0 2 3\nreceipt 2 1 4\n", "due 2 2024-09-10\nend 0\n"),
    ("LATE_LEAK", [VALVE_30, batch(2, 1, *LATE), batch(2, 2, *read_once("2024-04-20", 30, 700))], "due 2 2024-09-10",
     "receipt 0 2 3\nreceipt 2 1 4\nreceipt 2 2 5\n",
     "due 2 2024-09-10\n30 monthly 2024-05-31 missed\n30 monthly 2024-06-30 missed\n30 monthly 2024-08-31 missed\n30 monthly 2024-09-30 open\nend 4\n"),
    ("RELEASED", [RELIEF_40, batch(2, 1, fact("release", "2024-02-20", component=40), calibration("2024-02-24"),
                                   reading("2024-02-24", 40, 599, background=100))],
     "due 3 2024-02-24", "receipt 0 2 3\nreceipt 2 1 4\n", "due 3 2024-02-24\n40 release 2024-02-25 done 2024-02-24\nend 1\n"),
    ("RELEASING", [RELIEF_40, batch(2, 1, fact("release", "2024-02-20", component=40), calibration("2024-02-24"),
                                    reading("2024-02-24", 40, 600, background=100))],
     "due 3 2024-02-24", "receipt 0 2 3\nreceipt 2 1 4\n", "due 3 2024-02-24\n40 release 2024-02-25 open\nend 1\n"),
    ("DRIFTED", [NEW_VALVES, drifted(440)], "due 2 2024-02-21", "receipt 0 2 3\nreceipt 2 1 4\n",
     "due 2 2024-02-21\n30 monthly 2024-02-29 done 2024-02-20\n31 monthly 2024-02-29 open\n32 monthly 2024-02-29 open\nend 3\n"),
    ("DRIFTED_LESS", [NEW_VALVES, drifted(450)], "due 2 2024-02-21", "receipt 0 2 3\nreceipt 2 1 4\n",
     "due 2 2024-02-21\n" + "".join(f"{n} monthly 2024-02-29 done 2024-02-20\n" for n in (30, 31, 32)) + "end 3\n"),
    ("CLEAN_MONTHS", [VALVE_30, batch(2, 1, *read_once("2024-03-10", 30, 10), *read_once("2024-04-10", 30, 10))], "due 2 2024-08-20",
     "receipt 0 2 3\nreceipt 2 1 4\n", "due 2 2024-08-20\n30 monthly 2024-02-29 missed\n30 monthly 2024-05-31 missed\n"
     "30 monthly 2024-06-30 missed\n30 quarterly 2024-07-31 missed\nend 4\n"),
    ("DRIPS", [PUMP_41, batch(2, 1, DRIPS[0])], "due 3 2024-02-21", "receipt 0 2 3\nreceipt 2 1 4\n",
     "due 3 2024-02-21\n41 first 2024-03-19 open\n41 weekly 2024-02-25 done 2024-02-19\n41 drip 2024-02-24 open\nend 3\n"),
    ("DRIPS_MET", [PUMP_41, batch(2, 1, *DRIPS)], "due 3 2024-02-23", "receipt 0 2 3\nreceipt 2 1 4\n",
     "due 3 2024-02-23\n41 first 2024-03-19 done 2024-02-22\n41 weekly 2024-02-25 done 2024-02-19\n"
     "41 drip 2024-02-24 done 2024-02-22\nend 3\n"),
    ("DRIPS_AGAIN", [PUMP_41, batch(2, 1, *DRIPS, seen("2024-02-26", 41, "drips"))], "due 3 2024-02-27", "receipt 0 2 3\nreceipt 2 1 4\n",
     "due 3 2024-02-27\n41 first 2024-03-19 done 2024-02-22\n41 weekly 2024-03-03 done 2024-02-26\nend 2\n"),
    ("SKIPPED_AGAIN", [ELECTED, THREE_QUARTERS], "percent 1 20 2025-02-01", "receipt 0 2 3\nreceipt 2 1 4\n",
     "percent 1 20 leaking 0 monitored 0 not good skipped\n"),
    ("ONE_GOOD_QUARTER", [ELECTED, batch(2, 1, *read_once("2024-02-20", 1, 20))], "percent 1 18 2024-08-01", "receipt 0 2 3\nreceipt 2 1 4\n",
     "percent 1 18 leaking 0 monitored 0 not good not skipped\n"),
    ("SKIPPED", [ELECTED, QUARTERS], "percent 1 18 2024-08-01", "receipt 0 2 3\nreceipt 2 1 4\n",
     "percent 1 18 leaking 0 monitored 0 not good skipped\n"),
    ("NOT_SKIPPED", [ELECTED, QUARTERS], "percent 1 19 2024-11-01", "receipt 0 2 3\nreceipt 2 1 4\n",
     "percent 1 19 leaking 0 monitored 0 not good not skipped\n"),
    ("LATE_REPAIR", [batch(2, 1, *FIT_LEAK, fact("attempt", "2024-02-22", component=1, complete=True), calibration("2024-03-07"),
                           reading("2024-03-07", 1, 20))],
     "report 1 8 2024-03-31", "receipt 2 1 3\n", "report CRUDE unit 1 half 8 as of 2024-03-31\n" + "".join(
         f"{month} valves {valves} pumps 0 0 compressors 0 0\n" for month, valves in (
             ("2023-10", "0 0"), ("2023-11", "0 0"), ("2023-12", "0 0"), ("2024-01", "0 0"), ("2024-02", "1 0"), ("2024-03", "0 1"))) + "end 6\n"),
]
# At least one fact of each kind, of a handheld that enters equipment.
EVERY_KIND = [
    batch(0, 2, unit(4, "ALKY-2", BEGIN), component(50, 4, "valve", "gas", BEGIN), component(51, 4, "pump", "heavy", BEGIN),
          fact("class", "2024-02-20", component=50, **{"class": {**PLAIN, "designation": "nde"}}), fact("retire", "2024-02-21", component=50),
          fact("election", "2024-07-01", 0, unit=4, mode=3, notified=day("2024-04-02")), fact("shutdown", "2024-06-01", 0, unit=4, days=14),
          calibration("2024-02-20"), precision("2024-02-20"),
          fact("drift", "2024-02-20", 900, instrument=1, value=500, readings=(500, 500, 500)), reading("2024-02-20", 51, 20),
          fact("visual", "2024-02-20", component=5, state="drips"), fact("attempt", "2024-02-20", component=51, complete=True),
          delay("2024-02-20", 51, "d", expected="2024-03-01"), fact("release", "2024-02-20", component=8),
          fact("indication", "2024-02-20", component=51, sort="evidence", present=True)),
]
DENIED = [
    ("GROUND_OF_PUMPS", [batch(2, 1, delay("2024-03-01", 1, "d", 9, "2024-06-10"))], "denied 1 10 60.482-9a(d)\n"),
    ("NO_SIGNER", [batch(2, 1, delay("2024-03-01", 1, "a", 0, "2024-06-10"))], "denied 1 12 60.486a(c)(6)\n"),
    ("NOTIFIED_LATE", [batch(0, 2, fact("election", "2024-07-01", 0, unit=1, mode=1, notified=day("2024-04-03")))], "denied 1 14 60.487a(d)\n"),
    ("NO_QUARTER", [batch(0, 2, fact("election", "2024-07-02", 0, unit=1, mode=1, notified=day("2024-04-02")))], "denied 1 20 P5\n"),
]


def check(batches, words, shown):
    name, *numbers = words.split()
    on = day(numbers.pop() if name != "route" else numbers.pop(1))
    said = rule_model.view(BASE + batches, name, int(numbers[0]), int(numbers[1]) if len(numbers) > 1 else None, on)
    if said != shown:
        sys.exit(f"the model says {said!r}, not {shown!r}")


def literal(data):
    """The bytes as a literal, in lines."""
    out, line = "", ""
    for byte in data:
        piece = chr(byte) if 32 < byte < 127 and chr(byte) not in '"\\' else "\\0" if byte == 0 else f"\\x{byte:02x}"
        if len(line) + len(piece) > 88:
            out += line + "\\\n    "
            line = ""
        line += piece
    return f'b"{out}{line}"'


def constant(name, batches):
    data = b"".join(map(spelled, batches))
    print(f"const {name}: &[u8] = {literal(data)};\n")


def quoted(text):
    return '"' + text.replace("\n", "\\n") + '"'


def case_of_view(case):
    name, batches, words, said, shown = case
    check(batches, words, shown)
    return f'''    ({name}, "show {words}", {quoted(said)}, {quoted(shown)}),
'''


def main():
    print("""// bench/rows.py writes this file.
use crate::runs::{EMPTY, says};
use disk_model::MemoryDisk;
use std::alloc::Global;
use std::test::Fail;
use test_kit::is;
""")
    print("// Process unit 1 with valves 1 to 4, pumps 5 to 7, relief device 8 and compressor 9, and a precision test of instrument 1.")
    constant("BASE", BASE)
    for name, batches, *_ in TAGS + OTHERS + DENIED:
        constant(name, batches)
    if rule_model.denial(BASE, EVERY_KIND[0]):
        sys.exit("the model denies the batch of every kind")
    constant("EVERY_KIND", EVERY_KIND)
    print("""// A disk with the base, and then these batches, to which these lines are the replies.
pub fn docked(alloc: Global, input: &[u8], said: &str) -> Result<MemoryDisk, Fail> {
    let mut disk = MemoryDisk::new(alloc, EMPTY, &[])?;
    says(alloc, &mut disk, "dock", BASE, "receipt 0 1 1\\nreceipt 1 1 2\\n")?;
    says(alloc, &mut disk, "dock", input, said)?;
    Ok(disk)
}

// Batches, words, the replies to the batches, and what is shown then.
type View<'a> = (&'a [u8], &'a str, &'a str, &'a str);

// Sees that this is shown.
fn shows(alloc: Global, view: &View) -> Result<(), Fail> {
    let mut disk = docked(alloc, view.0, view.2)?;
    says(alloc, &mut disk, view.1, &[], view.3)
}
""")
    for table, test, cases in (("TAGS", "tags_are_those_of_the_rule", TAGS), ("VIEWS", "duties_percents_and_reports_are_those_of_the_rule", OTHERS)):
        print(f"const {table}: [View; {len(cases)}] = [")
        print("".join(map(case_of_view, cases)), end="")
        print(f"""];

#[test]
fn {test}(rt: HostRuntime) -> Result<(), Fail> {{
    for view in &{table} {{
        shows(rt.alloc(), view)?;
    }}
    Ok(())
}}
""")
    print("""#[test]
fn a_batch_of_every_kind_is_kept(rt: HostRuntime) -> Result<(), Fail> {
    let disk = docked(rt.alloc(), EVERY_KIND, "receipt 0 2 3\\n")?;
    is(disk.bytes().len() == 17 + 5 + 163 + 5 + 32 + 5 + EVERY_KIND.len(), "the journal's length")
}
""")
    print(f"const DENIED: [(&[u8], &str); {len(DENIED)}] = [")
    for name, batches, said in DENIED:
        place, rule = rule_model.denial(BASE, batches[0])
        if not said.startswith(f"denied {place} {rule} "):
            sys.exit(f"the model denies by {place} {rule}, not {said}")
        print(f"    ({name}, {quoted(said)}),")
    print("""];

#[test]
fn a_denied_batch_is_told_its_rule(rt: HostRuntime) -> Result<(), Fail> {
    for (input, said) in DENIED {
        docked(rt.alloc(), input, said)?;
    }
    Ok(())
}""")


if __name__ == "__main__":
    main()
