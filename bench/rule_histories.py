"""Compares the definitions of crates/ldar_law with bench/rule_model.py on random histories.

usage: python3 bench/rule_histories.py SEED HISTORIES      (from the top of a clone that is built; takes a minute for 200)

Each history gives the six views and the denial of a batch as equations, which `rt check` proves by computing, in a lemma
file of ldar_law that is removed afterwards. The exit status is that of the check: 0 if all agree.
"""
import pathlib
import random
import re
import subprocess
import sys

from rule_model import day_of, denial, first_day, month_of, quarter_first, quarter_of, suits, view

CRATE = pathlib.Path("crates/ldar_law")
KINDS = {"valve": "Valve", "pump": "Pump", "compressor": "Compressor", "relief": "Relief"}
SERVICES = {"gas": "Gas", "light": "Light", "heavy": "Heavy", "vacuum": "Vacuum", "under300": "Under300"}
DESIGNATIONS = {"none": "Plain", "nde": "Nde", "unsafe": "Unsafe", "difficult": "Difficult"}
STATES = {"dry": "Dry", "drips": "Drips", "leak": "Designated"}
GROUNDS = ("none", "a", "b", "c", "d", "e")
FAMILY = "Rattle.fact_kinds.specs.declared"
HEAD = f"""use Rattle.std.proofs.Common.{{◌≡◌, ℕ, true, false, Some, None, List, [], ◌∷◌, refl}}
use Rattle.std.specs.Prelude.{{codes}}
use Rattle.std.specs.Fmt.{{digits}}
use {FAMILY}.batch.Batch.{{Batch}}
use Rattle.fact_kinds.specs.Stated.{{Stated}}
use {FAMILY}.class.Class.{{Class}}
use {FAMILY}.class.Kind.TheVariants.{{Valve, Pump, Compressor, Relief}}
use {FAMILY}.class.Service.{{Service}}
use {FAMILY}.class.Service.TheVariants.{{Gas, Light, Heavy, Vacuum, Under300}}
use {FAMILY}.class.Designation.{{Designation}}
use {FAMILY}.class.Designation.TheVariants.{{Plain, Nde, Unsafe, Difficult}}
use {FAMILY}.body.Purpose.TheVariants.{{Routine, FollowUp}}
use {FAMILY}.body.VisualState.TheVariants.{{Dry, Drips, Designated}}
use {FAMILY}.body.Sort.TheVariants.{{Sensor, Evidence}}
use {FAMILY}.body.FactBody.{{FactBody}}
use {FAMILY}.body.FactBody.TheVariants.{{Unit as UnitFact, Component as ComponentFact, Class as ClassFact, Retire, Election, Shutdown, Calibration, Precision, Drift, Reading, Visual, Attempt, Delay, Release, Indication}}
use Rattle.ldar_law.specs.declared.reply.Reply.TheVariants.{{Shown, NoSuch}}
use Rattle.ldar_law.specs.declared.request.Request.TheVariants.{{Due, Tags, Delays, Route, Percent, Report as ReportView}}
use Rattle.ldar_law.specs.declared.request.What.TheVariants.{{Unit as NoUnit, Quarter as NoQuarter, Half as NoHalf, Stops as NoStops}}
use Rattle.ldar_law.specs.declared.verdict.Verdict.TheVariants.{{Pass, Denied}}
use Rattle.ldar_law.specs.Verdicts.{{verdict_on}}
IMPORTS

abbrev class_of_four : Service → Designation → ℕ → ℕ → Class
class_of_four service designation plan month = record {{ service = service; designation = designation; plan = plan; month = month }}

abbrev fact : ℕ → ℕ → FactBody → Stated
fact day minute body = record {{ day = day; minute = minute; body = body }}

abbrev batch : ℕ → ℕ → List Stated → Batch
batch handheld number facts = record {{ handheld = handheld; number = number; facts = facts }}
"""

# ---- facts as terms


def a_list(terms):
    return "(" + "".join(term + " ∷ " for term in terms) + "[])"


def a_class(c):
    return f"(class_of_four {SERVICES[c['service']]} {DESIGNATIONS[c['designation']]} {c['plan']} {c['month']})"


def a_truth(value):
    return "true" if value else "false"


def body(f):
    c = f.get("component")
    return {
        "unit": lambda: f"UnitFact {f['unit']} {a_truth(f['older'])} (codes \"{f['name']}\")",
        "component": lambda: f"ComponentFact {c} {f['unit']} {KINDS[f['type']]} {a_truth(f['monomer'])} {a_truth(f['replaces'])} {a_class(f['class'])}",
        "class": lambda: f"ClassFact {c} {a_class(f['class'])}",
        "retire": lambda: f"Retire {c}",
        "election": lambda: f"Election {f['unit']} {f['mode']} {f['notified']}",
        "shutdown": lambda: f"Shutdown {f['unit']} {f['days']}",
        "calibration": lambda: f"Calibration {f['instrument']} {f['gas']}",
        "precision": lambda: f"Precision {f['instrument']} {f['value']} {f['readings']}",
        "drift": lambda: f"Drift {f['instrument']} {f['value']} {f['readings']}",
        "reading": lambda: f"Reading {c} {f['instrument']} {f['operator']} {'Routine' if f['purpose'] == 'routine' else 'FollowUp'} {f['ppm']} {f['background']}",
        "visual": lambda: f"Visual {c} {STATES[f['state']]}",
        "attempt": lambda: f"Attempt {c} {a_truth(f['complete'])}",
        "delay": lambda: f"Delay {c} {GROUNDS.index(f['ground'])} {f['signer']} {'None' if f['expected'] is None else '(Some %d)' % f['expected']}",
        "release": lambda: f"Release {c}",
        "indication": lambda: f"Indication {c} {f['sort'].capitalize()} {a_truth(f['present'])}",
    }[f["kind"]]()


def a_batch(b):
    return f"batch {b['handheld']} {b['number']} " + a_list(f"fact {f['day']} {f['minute']} ({body(f)})" for f in b["facts"])


# ---- random histories


def fact(day, minute, kind, **fields):
    return dict(day=day, minute=minute, kind=kind, **fields)


def precision(day, reading=500):
    return fact(day, 100, "precision", instrument=1, value=500, readings=(reading, 450 if reading < 500 else 500, 450 if reading < 500 else 500))


def calibration(day, gas=500, minute=200):
    return fact(day, minute, "calibration", instrument=1, gas=gas)


class Histories:
    """Random histories of a unit 1 with few components. In those for views each batch passes after those before it."""

    def __init__(self, seed):
        self.random = random.Random(seed)
        self.choice, self.chance, self.between = self.random.choice, lambda p: self.random.random() < p, self.random.randint

    def a_class(self, kind, suited=True):
        while True:
            c = dict(service=self.choice(["gas"] * 3 + ["light"] * 3 + ["heavy", "vacuum", "under300"]),
                     designation=self.choice(["none"] * 5 + ["nde", "unsafe", "difficult"]), plan=0, month=self.between(1, 3))
            if c["designation"] == "unsafe":
                c["plan"] = self.choice([1, 2, 5, 6])
            if not suited or suits(kind, c):
                return c

    def component(self, number, day, kind=None, unit=1):
        kind = kind or self.choice(["valve"] * 4 + ["pump"] * 3 + ["compressor", "relief"])
        return fact(day, 0, "component", component=number, unit=unit, type=kind, monomer=self.chance(.3), replaces=self.chance(.2),
                    **{"class": self.a_class(kind)})

    def a_fact(self, components, low, high, kind):
        c, day, minute = self.choice(components), self.between(low, high), self.choice([300, 600, 601, 900])
        fields = {
            "reading": lambda: dict(instrument=1, operator=1, purpose=self.choice(["routine"] * 4 + ["follow"]), background=self.choice([0, 0, 100]),
                                    ppm=self.choice([10, 20, 440, 499, 500, 590, 600, 700, 1999, 2000, 5000, 9999, 10000])),
            "visual": lambda: dict(state=self.choice(["dry", "drips", "leak"])),
            "attempt": lambda: dict(complete=self.chance(.5)),
            "delay": lambda: dict(ground=self.choice(["a", *GROUNDS]), signer=9, expected=day + 60),
            "indication": lambda: dict(sort=self.choice(["sensor", "evidence"]), present=self.chance(.7)),
            "class": lambda: {"class": self.a_class("valve", suited=False)},
            "release": dict, "retire": dict,
        }
        if kind in fields:
            return fact(day, minute, kind, component=c, **fields[kind]())
        if kind == "shutdown":
            return fact(day, minute, kind, unit=1, days=self.choice([1, 14, 30]))
        return fact(day, 1000, "drift", instrument=1, value=500, readings=(self.choice([400, 440, 450, 500]),) * 3)

    def a_startup(self):
        return day_of(self.choice([2020, 2021, 2022, 2023]), self.between(1, 12), self.between(1, 28))

    def unit(self, startup, older=True):
        return fact(startup, 0, "unit", unit=1, older=older, name="U-1")

    def with_batch(self, history, facts):
        """The history with one batch more, if it passes."""
        register = any(f["kind"] in ("retire", "class", "shutdown", "election") for f in facts)
        b = dict(handheld=0 if register else self.choice([2, 3]), number=100 + len(history), facts=facts)
        return history if denial(history, b) else history + [b]

    def of_events(self):
        """Some components, with everything that can happen to them."""
        startup = self.a_startup()
        count = self.between(1, 4)
        days = [startup + self.choice([0, 0, 40, 100, 200]) for _ in range(count)]
        history = [dict(handheld=0, number=1, facts=[self.unit(startup)] + [self.component(i + 1, d) for i, d in enumerate(days)])]
        low = startup + self.choice([20, 60])
        high = low + self.choice([60, 120, 240, 400])
        history.append(dict(handheld=1, number=1, facts=[precision(d) for d in range(low - 5, high + 40, self.choice([60, 85, 100]))]))
        if self.chance(.3):
            first = quarter_first(startup, self.between(1, 4))
            history = self.with_batch(history, [fact(first, 0, "election", unit=1, mode=self.choice([0, 1, 3]), notified=first - 90)])
        kinds = ["reading"] * 7 + ["attempt"] * 4 + ["delay"] * 4 + ["visual"] * 3 + ["indication"] * 2 + ["release", "shutdown", "drift", "class", "retire"]
        for _ in range(self.between(6, 24)):
            f = self.a_fact(list(range(1, count + 1)), low, high, self.choice(kinds))
            calibrated = f["kind"] == "reading" and self.chance(.93)
            history = self.with_batch(history, [calibration(f["day"], self.choice([500, 500, 2500]))] * calibrated + [f])
        return history, startup, self.between(low, high + 60)

    def of_quarters(self):
        """One or two valves that are monitored over years, with elections of skip periods."""
        startup = self.a_startup()
        count, mode = self.between(1, 2), self.choice([1, 3, 3])
        first = quarter_first(startup, self.between(1, 3))
        plain = dict(service="gas", designation="none", plan=0)
        facts = [self.unit(startup), fact(first, 0, "election", unit=1, mode=mode, notified=first - 90)]
        facts += [fact(startup + self.choice([0, 0, 50]), 0, "component", component=c, unit=1, type="valve", monomer=False, replaces=False,
                       **{"class": dict(plain, month=self.between(1, 3))}) for c in range(1, count + 1)]
        rounds, month, months = [], month_of(startup) + 1, self.choice([12, 24, 36])
        while month < month_of(startup) + 1 + months:
            day = first_day(month) + self.choice([2, 9, 20])
            rounds += [precision(day), calibration(day)] + [
                fact(day, 600 + c, "reading", component=c, instrument=1, operator=1, purpose="routine", ppm=700 if self.chance(.03) else 20, background=0)
                for c in range(1, count + 1) if self.chance(.93)]
            month += self.choice([1, 1, 2, 3])
        history = [dict(handheld=0, number=1, facts=facts), dict(handheld=1, number=1, facts=rounds)]
        return history, startup, first_day(month_of(startup) + self.between(months // 2, months))

    def before_a_denial(self):
        """A small history and a batch of anything."""
        startup = day_of(2020, 1, 15)
        facts = [self.unit(startup, self.chance(.3))] + [self.component(c, startup + self.choice([0, 10])) for c in range(1, self.between(3, 6))]
        history = [dict(handheld=0, number=1, facts=facts)] * self.chance(.95)
        for _ in range(self.between(0, 3)):
            history = self.with_batch(history, [self.a_fact([1, 2, 3, 4, 5], startup - 5, startup + 300, self.choice(["class", "class", "retire", "shutdown"]))])
        facts = [self.anything(startup) for _ in range(self.between(1, 4))]
        register = any(f["kind"] in ("unit", "component", "class", "retire", "election", "shutdown") for f in facts)
        return history, dict(handheld=self.choice([0, 0, 0, 7]) if register else 7, number=99, facts=facts)

    def anything(self, startup):
        kind = self.choice(["reading", "visual", "delay", "release", "indication", "class", "class", "component", "unit", "election", "shutdown", "attempt"])
        if kind == "unit":
            f = fact(startup, 0, kind, unit=self.choice([1, 2]), older=False, name="U-2")
        elif kind == "component":
            f = self.component(self.between(1, 9), startup + self.between(0, 300), unit=self.choice([1, 1, 1, 2]))
            f["class"] = self.a_class(f["type"], suited=self.chance(.5))
        elif kind == "election":
            day = quarter_first(startup, self.between(1, 8)) + self.choice([0, 0, 0, 1])
            f = fact(day, 0, kind, unit=self.choice([1, 1, 2]), mode=self.choice([0, 1, 3]), notified=day - self.choice([89, 90, 200]))
        else:
            f = self.a_fact([1, 2, 3, 4, 5, 6], startup - 3, startup + 300, kind)
        if kind == "reading" and self.chance(.2):
            f[self.choice(["instrument", "operator"])] = 0
        if kind == "delay":
            f["signer"], f["expected"] = self.choice([0, 9, 9]), self.choice([None, startup + 400, startup + 400])
        if self.chance(.03):
            f["day"] = self.choice([46751, 46752])
        return f

    def before_a_difficult_valve(self):
        """Valves of which about 3 percent are difficult to monitor, and a batch that may make more so."""
        startup, count = day_of(2020, 1, 15), self.choice([33, 34, 66, 67])
        valves = [fact(startup + (self.choice([0, 100]) if c < 4 else 0), 0, "component", component=c, unit=1, type="valve", monomer=False, replaces=False,
                       **{"class": dict(service="light", designation="none", plan=0, month=1)}) for c in range(1, count + 1)]
        history = [dict(handheld=0, number=1, facts=[self.unit(startup, self.chance(.1))] + valves)]

        def a_class():
            made = dict(service="gas", designation=self.choice(["difficult", "difficult", "none"]), plan=0, month=1)
            return fact(startup + self.choice([50, 120]), self.choice([0, 1]), "class", component=self.between(1, 4), **{"class": made})

        for _ in range(self.between(0, 2)):
            history = self.with_batch(history, [a_class() if self.chance(.8) else fact(startup + 60, 0, "retire", component=self.between(1, count))])
        return history, dict(handheld=0, number=99, facts=[a_class() for _ in range(self.between(1, 3))])


# ---- equations


def opened():
    """The definitions that must be opened to compute, by module."""
    found = {"Rattle.std.specs.Fmt": ["digits"]}
    for crate in ("ldar_days", "list_words", "ldar_law"):
        for path in sorted(pathlib.Path("crates", crate, "specs").glob("*.antt")):
            names = re.findall(r"^ *unfoldable pub (\S+)", path.read_text(), re.M)
            if names:
                found[f"Rattle.{crate}.specs.{path.stem}"] = names
    return found


def equations(histories, count):
    modules = opened()
    names = " ".join(name for module in modules.values() for name in module)
    imports = "\n".join(f"use {module}.{{{', '.join(names)}}}" for module, names in modules.items() if not module.endswith("Fmt"))
    yield HEAD.replace("IMPORTS", imports)
    for i in range(count):
        history, startup, day = histories.of_events() if histories.chance(.8) else histories.of_quarters()
        yield f"\nhistory_{i} : List Batch\nhistory_{i} = " + a_list(map(a_batch, history)) + "\n"
        quarter = quarter_of(startup, month_of(day)) or 0
        for name, term, number in (("due", "Due 1", None), ("tags", "Tags 1", None), ("delays", "Delays 1", None), ("route", "Route 1", histories.choice([0, 2, 3])),
                                   ("percent", "Percent 1", max(0, quarter + histories.choice([-1, 0, 0, 1]))),
                                   ("report", "ReportView 1", max(0, (quarter + 1) // 2 + histories.choice([-1, 0, 0, 1])))):
            text = view(history, name, 1, number or 0, day)
            answer = f"NoSuch No{text[1].capitalize()}" if isinstance(text, tuple) else f'Shown (codes "{text}")'.replace("\n", "\\n")
            if name == "route":
                request = f"Route 1 {day} {number}"
            else:
                request = f"{term} {day}" if number is None else f"{term} {number} {day}"
            yield f"\n{name}_{i} : shown history_{i} ({request}) ≡ Some ({answer})\nunfolding history_{i} {names}\n{name}_{i} = refl\n"
        history, last = histories.before_a_denial() if histories.chance(.8) else histories.before_a_difficult_valve()
        found = denial(history, last)
        verdict = f"Denied {found[0]} {found[1]}" if found else "Pass"
        yield f"\nverdict_{i} : verdict_on {a_list(map(a_batch, history))} ({a_batch(last)}) ≡ {verdict}\nunfolding {names}\nverdict_{i} = refl\n"


def main():
    lemmas, modules = CRATE / "proofs/RandomHistories.antt", CRATE / "proofs/Lib.antt"
    before = modules.read_text()
    try:
        lemmas.write_text("".join(equations(Histories(int(sys.argv[1])), int(sys.argv[2]))))
        modules.write_text(before + "mod RandomHistories\n")
        check = subprocess.run(["rt", "check"], cwd=CRATE, capture_output=True, text=True)
    finally:
        modules.write_text(before)
        lemmas.unlink(missing_ok=True)
    print("".join(line + "\n" for line in (check.stdout + check.stderr).splitlines() if "error" in line or line.startswith("logic=")), end="")
    sys.exit(check.returncode)


main()
