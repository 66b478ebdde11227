"""The rule again, as a plain program: what a history shows and which batches are denied.

It is written from the rule and from docs/RULES.md, not from the definitions of crates/ldar_law, and is simple and slow.
bench/rule_histories.py compares the two on random histories. Nothing in the program uses it.

A day is the number of days since 1970-01-01, a month year * 12 + month - 1. A fact is a dict with its day, minute and kind,
and the fields of its kind; a batch is a dict with handheld, number and facts.
"""
import datetime

EPOCH = datetime.date(1970, 1, 1)
LAST_DAY = 47481

# ---- calendar


def date(day):
    return EPOCH + datetime.timedelta(days=day)


def day_of(year, month, day):
    return (datetime.date(year, month, day) - EPOCH).days


def day_text(day):
    return date(day).isoformat()


def month_of(day):
    return date(day).year * 12 + date(day).month - 1


def first_day(month):
    return day_of(month // 12, month % 12 + 1, 1)


def last_day(month):
    return first_day(month + 1) - 1


def end_by(day):
    return min(day, LAST_DAY)


def plus_months(day, months):
    month = month_of(day) + months
    return end_by(min(first_day(month) + date(day).day - 1, last_day(month)))


def first_quarter(startup):
    """The first month of quarter 1."""
    month = month_of(startup + 180)
    while not (first_day(month) >= startup + 1 and last_day(month) <= startup + 180):
        month -= 1
    return month - 2


def quarter_month(startup, quarter):
    return first_quarter(startup) + 3 * (quarter - 1)


def quarter_of(startup, month):
    first = first_quarter(startup)
    return None if month < first else (month - first) // 3 + 1


def quarter_first(startup, quarter):
    return end_by(first_day(quarter_month(startup, quarter)))


def quarter_last(startup, quarter):
    return end_by(last_day(quarter_month(startup, quarter) + 2))


# ---- facts


def keyed(batch):
    return [((f["day"], f["minute"], batch["handheld"], batch["number"], i), f) for i, f in enumerate(batch["facts"])]


def facts_of(history):
    return sorted((e for batch in history for e in keyed(batch)), key=lambda e: e[0])


REGIMES = {
    ("valve", "gas"): "V", ("valve", "light"): "V", ("pump", "light"): "P", ("compressor", "gas"): "C", ("relief", "gas"): "R",
    ("valve", "heavy"): "H", ("pump", "heavy"): "H", ("relief", "light"): "H", ("relief", "heavy"): "H",
}


def regime_of(kind, service):
    return REGIMES.get((kind, service), "X")


def class_by(facts, component, day, entry):
    """The class of the last Class fact by the day, of facts in key order, or that of the component's entry."""
    found = entry["class"]
    for _, f in facts:
        if f["kind"] == "class" and f["component"] == component and f["day"] <= day:
            found = f["class"]
    return found


EVENTS = ("retire", "reading", "visual", "attempt", "delay", "release", "indication")


class Office:
    """What follows from the facts of a history up to a view day."""

    def __init__(self, history, day):
        self.day = day
        self.facts = [e for e in facts_of(history) if e[1]["day"] <= day]
        self.units, self.components, self.kept_events, self.kept_skips = {}, {}, {}, {}
        for _, f in self.facts:
            if f["kind"] == "unit":
                self.units.setdefault(f["unit"], f)
            if f["kind"] == "component":
                self.components.setdefault(f["component"], f)

    # -- force

    def kind(self, c):
        return self.components[c]["type"]

    def startup(self, c):
        return self.units[self.components[c]["unit"]]["day"]

    def class_on(self, c, day):
        return class_by(self.facts, c, day, self.components[c])

    def regime(self, c, day):
        return regime_of(self.kind(c), self.class_on(c, day)["service"])

    def designation(self, c, day):
        return self.class_on(c, day)["designation"]

    def serves(self, c, day):
        retired = any(f["kind"] == "retire" and f["component"] == c and f["day"] <= day for _, f in self.facts)
        return self.components[c]["day"] <= day and not retired

    def limit(self, c, day):
        pump = 5000 if self.components[c]["monomer"] else 2000
        return {"P": pump, "H": 10000}.get(self.regime(c, day), 500)

    # -- readings and events

    def of_instrument(self, number, kind):
        return [(k, f) for k, f in self.facts if f["kind"] == kind and f["instrument"] == number]

    def is_fit(self, key, f):
        limit = self.limit(f["component"], f["day"])
        calibrated = any(g["day"] == f["day"] and k < key and g["gas"] <= limit + 2000
                         for k, g in self.of_instrument(f["instrument"], "calibration"))
        precise = any(k < key and abs(sum(g["readings"]) - 3 * g["value"]) * 10 <= 3 * g["value"]
                      and f["day"] <= plus_months(g["day"], 3) for k, g in self.of_instrument(f["instrument"], "precision"))
        return calibrated and precise

    def is_voided(self, key, f):
        if f["ppm"] >= self.limit(f["component"], f["day"]):
            return False
        for k, g in self.of_instrument(f["instrument"], "drift"):
            calibrated = any(key < other < k for other, _ in self.of_instrument(f["instrument"], "calibration"))
            total, value = sum(g["readings"]), g["value"]
            if (g["day"] == f["day"] and key < k and not calibrated and (3 * value - total) * 10 > 3 * value
                    and f["ppm"] * 3 * value > self.limit(f["component"], f["day"]) * total):
                return True
        return False

    def counts(self, key, f):
        c, day = f["component"], f["day"]
        return self.serves(c, day) and self.regime(c, day) != "X" and self.is_fit(key, f) and not self.is_voided(key, f)

    def is_leak(self, key, f):
        c, day = f["component"], f["day"]
        if not self.serves(c, day) or self.designation(c, day) == "nde":
            return False
        regime = self.regime(c, day)
        if f["kind"] == "reading":
            return regime in "VPH" and self.counts(key, f) and f["ppm"] >= self.limit(c, day)
        if f["kind"] == "visual":
            return regime == "P" and f["state"] == "leak"
        return f["kind"] == "indication" and regime == "C" and f["sort"] == "sensor" and f["present"]

    def events(self, c):
        if c not in self.kept_events:
            self.kept_events[c] = [self.event(k, f) for k, f in self.facts if f["kind"] in EVENTS and f["component"] == c]
        return self.kept_events[c]

    def event(self, key, f):
        counts = f["kind"] == "reading" and self.counts(key, f)
        below = counts and f["ppm"] < self.limit(f["component"], f["day"])
        return dict(key=key, f=f, day=f["day"], kind=f["kind"], leak=self.is_leak(key, f), counts=counts, below=below,
                    routine=counts and f["purpose"] == "routine")

    # -- tags

    def settles(self, c, leak, v):
        between = [x for x in self.events(c) if leak["key"] < x["key"] < v["key"]]

        def leaks_since(x):
            return any(y["leak"] for y in between if y["key"] > x["key"])

        attempted = any(x["kind"] == "attempt" and not leaks_since(x) for x in between)
        if leak["kind"] in ("reading", "visual") and v["below"] and attempted:
            return True
        if leak["kind"] == "visual" and v["kind"] == "visual" and v["f"]["state"] == "dry" and attempted:
            return True
        if leak["kind"] == "indication" and v["kind"] == "attempt" and v["f"]["complete"]:
            return True
        delayed = any(x["kind"] == "delay" and x["f"]["ground"] in ("a", "c", "d", "e") and x["day"] <= leak["day"] + 15
                      for x in between)
        if self.kind(c) in ("valve", "pump") and v["below"] and delayed:
            if any(w["below"] and month_of(w["day"]) + 1 == month_of(v["day"]) and not leaks_since(w) for w in between):
                return True
        return v["kind"] == "retire"

    def is_unsettled(self, c, events):
        """Some leak of a prefix of the events is settled by none of them."""
        return any(e["leak"] and not any(v["key"] > e["key"] and self.settles(c, e, v) for v in events) for e in events)

    def tags(self, c):
        events = self.events(c)
        return [self.tag(c, i) for i, e in enumerate(events) if e["leak"] and not self.is_unsettled(c, events[:i])]

    def tag(self, c, i):
        events = self.events(c)
        leak, after = events[i], events[i + 1:]
        closing = next((x for j, x in enumerate(after) if not self.is_unsettled(c, events[:i + 2 + j])), None)
        due, last = end_by(leak["day"] + 15), None
        for x in after:
            inside = closing is None or x["key"] < closing["key"]
            if x["kind"] == "delay" and inside and not (isinstance(due, int) and x["day"] > due):
                due, last = self.due_by(c, leak["day"], x), x["f"]
        return dict(component=c, detected=leak["day"], attempt_due=end_by(leak["day"] + 5), due=due, delay=last,
                    attempted=next((x["day"] for x in after if x["kind"] == "attempt"), None),
                    closed=closing and closing["day"], removable=closing is not None and self.is_removable(c, closing["day"]))

    def is_removable(self, c, closed):
        months = range(month_of(closed), month_of(self.day) + 1)
        return self.kind(c) != "valve" or any(self.is_clean(c, m) and self.is_clean(c, m + 1) for m in months)

    def stops(self, unit):
        return [(f["day"], end_by(f["day"] + f["days"] - 1)) for _, f in self.facts if f["kind"] == "shutdown" and f["unit"] == unit]

    def due_by(self, c, detected, delay):
        ground = delay["f"]["ground"]
        later = [stop for stop in self.stops(self.components[c]["unit"]) if stop[0] > detected]

        def end(stop):
            attempted = any(x["kind"] == "attempt" and stop[0] <= x["day"] <= stop[1] for x in self.events(c))
            return end_by(stop[1] + 16) if attempted else stop[1]

        if ground == "none":
            return max(end_by(detected + 15), delay["day"])
        if ground == "a":
            return end(later[0]) if later else "shutdown"
        if ground in ("b", "c"):
            return {"b": "isolated", "c": "purge"}[ground]
        if ground == "d":
            return plus_months(detected, 6)
        place = 2 if len(later) > 1 and later[1][0] < plus_months(later[0][0], 6) else 1
        return end(later[place]) if len(later) > place else "shutdown"

    def is_late(self, tag):
        return isinstance(tag["due"], int) and (self.day if tag["closed"] is None else tag["closed"]) > tag["due"]

    # -- months

    def is_clean(self, c, month):
        events = [x for x in self.events(c) if month_of(x["day"]) == month]
        return any(x["below"] and x["routine"] for x in events) and not any(x["leak"] for x in events)

    def is_quarterly(self, c, month):
        quarter = quarter_of(self.startup(c), month)
        if quarter is None:
            return False
        first = quarter_month(self.startup(c), quarter)
        return any(self.is_clean(c, k) and self.is_clean(c, k + 1)
                   and not any(x["leak"] and k <= month_of(x["day"]) < month for x in self.events(c))
                   for k in range(first_quarter(self.startup(c)) - 240, first - 1) if k >= 24096)

    # -- duties: (cause, due day, key of what met it)

    def duties(self, c):
        return [d for cause in (self.first, self.monthly, self.quarterly, self.yearly, self.planned, self.weekly, self.drips,
                                self.releases, self.evidence) for d in cause(c)]

    def period(self, cause, first, due, is_owed, met):
        """A duty of a period, as a list of one or none."""
        judged = min(due, self.day)
        if first > self.day or not is_owed(judged):
            return []
        found = met(judged)
        is_listed = self.day <= due or (found is None and self.day - 366 <= due)
        return [(cause, due, found and found["key"])] if is_listed else []

    def routine(self, c, first, due, near_background=False):
        return next((x for x in self.events(c) if x["routine"] and first <= x["day"] <= due
                     and (not near_background or is_near_background(x))), None)

    def is_first_owed(self, c, day):
        f = self.components[c]
        return (self.serves(c, day) and self.regime(c, day) in "VP" and self.designation(c, f["day"]) == "none"
                and f["day"] > self.startup(c) and not f["replaces"])

    def first(self, c):
        begin = self.components[c]["day"]
        due = end_by(begin + 30)
        return self.period(1, begin, due, lambda day: self.is_first_owed(c, day), lambda day: self.routine(c, begin, due))

    def months_after(self, c):
        return range(month_of(self.components[c]["day"]) + 1, month_of(self.day) + 1)

    def in_months(self, cause, c, is_owed):
        return [d for m in self.months_after(c) for d in self.period(
            cause, first_day(m), last_day(m), lambda day: is_owed(m, day), lambda day: self.routine(c, first_day(m), last_day(m)))]

    def monthly(self, c):
        return self.in_months(2, c, lambda m, day: self.serves(c, day) and self.designation(c, day) == "none" and (
            self.regime(c, day) == "P" or (self.regime(c, day) == "V" and not self.is_quarterly(c, m))))

    def quarterly(self, c):
        def is_owed(m, day):
            if not (self.serves(c, day) and self.designation(c, day) == "none" and self.regime(c, day) == "V" and self.is_quarterly(c, m)):
                return False
            quarter = quarter_of(self.startup(c), m)
            month_in_quarter = m - quarter_month(self.startup(c), quarter) + 1
            return month_in_quarter == self.class_on(c, day)["month"] and not self.is_skipped(self.components[c]["unit"], quarter)
        return self.in_months(3, c, is_owed)

    def yearly(self, c):
        def is_owed(day):
            difficult = self.regime(c, day) == "V" and self.designation(c, day) == "difficult"
            return self.serves(c, day) and (difficult or (self.regime(c, day) in "VPC" and self.designation(c, day) == "nde"))

        def of_year(year):
            first, due = day_of(year, 1, 1), day_of(year, 12, 31)
            return self.period(4, first, due, is_owed, lambda day: self.routine(c, first, due, self.designation(c, day) == "nde"))

        years = range(date(end_by(self.components[c]["day"] + 30)).year, date(self.day).year + 1)
        return [d for year in years for d in of_year(year)]

    def planned(self, c):
        """Windows of p months from the month after the beginning, for each p from 1 to 60."""
        begin = month_of(self.components[c]["day"]) + 1

        def window(first_month, plan):
            first, due = first_day(first_month), end_by(last_day(first_month + plan - 1))
            return self.period(5, first, due, lambda day: self.serves(c, day) and self.designation(c, day) == "unsafe"
                               and self.regime(c, day) in "VP" and self.class_on(c, day)["plan"] == plan,
                               lambda day: self.routine(c, first, due))

        found = [d for p in range(1, 61) for m in range(begin, month_of(self.day) + 1, p) for d in window(m, p)]
        return sorted(found, key=lambda d: d[1])

    def weekly(self, c):
        def of_week(week):
            first, due = 7 * week - 3, end_by(7 * week + 3)
            return self.period(6, first, due, lambda day: self.is_weekly(c, day), lambda day: next(
                (x for x in self.events(c) if x["kind"] == "visual" and first <= x["day"] <= due), None))

        weeks = range((self.components[c]["day"] + 3) // 7 + 1, (self.day + 3) // 7 + 1)
        return [d for week in weeks for d in of_week(week)]

    def is_weekly(self, c, day):
        return self.serves(c, day) and self.regime(c, day) == "P" and self.designation(c, day) == "none"

    def after(self, cause, c, is_owed, meets):
        """Duties of five days after events."""
        return [d for e in self.events(c) if is_owed(e) for d in self.period(
            cause, e["day"], end_by(e["day"] + 5), lambda day: True, lambda day: next(
                (x for x in self.events(c) if x["key"] > e["key"] and x["day"] <= end_by(e["day"] + 5) and meets(x)), None))]

    def is_repeated(self, c, drips):
        def since(p):
            return [x for x in self.events(c) if p["key"] < x["key"] < drips["key"]]
        return any(p["key"] < drips["key"] and p["kind"] == "visual" and p["f"]["state"] != "dry" and any(x["below"] for x in since(p))
                   and not any(x["kind"] == "visual" and x["f"]["state"] == "dry" for x in since(p)) for p in self.events(c))

    def drips(self, c):
        return self.after(7, c, lambda e: e["kind"] == "visual" and e["f"]["state"] == "drips" and self.is_weekly(c, e["day"])
                          and not self.is_repeated(c, e),
                          lambda x: x["counts"] or (x["kind"] == "visual" and x["f"]["state"] == "leak"))

    def releases(self, c):
        return self.after(8, c, lambda e: e["kind"] == "release" and self.serves(c, e["day"]) and self.regime(c, e["day"]) == "R",
                          lambda x: x["counts"] and is_near_background(x))

    def evidence(self, c):
        def is_evidence(x, present):
            return x["kind"] == "indication" and x["f"]["sort"] == "evidence" and x["f"]["present"] == present
        return self.after(9, c, lambda e: is_evidence(e, True) and self.serves(c, e["day"]) and self.regime(c, e["day"]) == "H",
                          lambda x: x["counts"] or is_evidence(x, False))

    # -- percent leaking and skipped quarters

    def members(self, unit):
        return sorted(c for c, f in self.components.items() if f["unit"] == unit)

    def mark(self, c, quarter):
        startup, f = self.startup(c), self.components[c]
        judged = min(quarter_last(startup, quarter), self.day)
        if self.regime(c, judged) != "V" or self.designation(c, judged) == "nde":
            return False, False
        readings = [x for x in self.events(c) if x["routine"] and quarter_of(startup, month_of(x["day"])) == quarter]
        delayed = any(t["detected"] <= judged and (t["closed"] is None or t["closed"] > judged) and t["delay"]
                      and t["delay"]["ground"] != "none" for t in self.tags(c))
        due = end_by(f["day"] + 30)
        missed = (quarter_of(startup, month_of(f["day"])) == quarter and due < self.day and self.is_first_owed(c, due)
                  and not self.routine(c, f["day"], due))
        both = bool(delayed or missed)
        return both or any(x["leak"] for x in readings), both or bool(readings)

    def tally(self, unit, quarter):
        marks = [self.mark(c, quarter) for c in self.members(unit)]
        return sum(m[0] for m in marks), sum(m[1] for m in marks)

    def is_good(self, unit, quarter):
        leaking, monitored = self.tally(unit, quarter)
        return monitored > 0 and 50 * leaking <= monitored

    def is_skipped(self, unit, quarter):
        if (unit, quarter) not in self.kept_skips:
            self.kept_skips[unit, quarter] = self.skips(unit, quarter)
        return self.kept_skips[unit, quarter]

    def skips(self, unit, quarter):
        first, mode = quarter_first(self.units[unit]["day"], quarter), 0
        for _, f in self.facts:
            if f["kind"] == "election" and f["unit"] == unit and f["day"] <= first:
                mode = f["mode"]
        before = range(quarter - 1, 0, -1)
        unskipped = [q for q in before if not self.is_skipped(unit, q)]
        run = next((i for i, q in enumerate(before) if not self.is_skipped(unit, q)), len(before))
        wanted = {1: 2, 3: 5}.get(mode)
        good = wanted and len(unskipped) >= wanted and all(self.is_good(unit, q) for q in unskipped[:wanted])
        return bool(good) and run < {1: 1, 3: 3}[mode]


def is_near_background(x):
    return max(0, x["f"]["ppm"] - x["f"]["background"]) < 500


# ---- views

CAUSES = "first monthly quarterly yearly plan weekly drip release evidence".split()


def or_hyphen(day):
    return "-" if day is None else day_text(day)


def until_text(due):
    return day_text(due) if isinstance(due, int) else due


def delay_words(t):
    ground = "withdrawn" if t["delay"]["ground"] == "none" else t["delay"]["ground"]
    return (f"{t['component']} detected {day_text(t['detected'])} ground {ground} signer {t['delay']['signer']}"
            f" expected {or_hyphen(t['delay']['expected'])} until {until_text(t['due'])}")


def tag_words(t):
    return (f"{t['component']} detected {day_text(t['detected'])} attempt {day_text(t['attempt_due'])} {or_hyphen(t['attempted'])}"
            f" repair {until_text(t['due'])} {or_hyphen(t['closed'])} {'removable' if t['removable'] else 'tagged'}")


def report_lines(o, unit, half):
    startup = o.units[unit]["day"]
    first, last = quarter_first(startup, 2 * half - 1), quarter_last(startup, 2 * half)
    for month in range(quarter_month(startup, 2 * half - 1), quarter_month(startup, 2 * half - 1) + 6):
        words = f"{month // 12:04}-{month % 12 + 1:02}"
        for kind in ("valve", "pump", "compressor"):
            members = [c for c in o.members(unit) if o.kind(c) == kind]
            leaking = sum(any(x["leak"] and month_of(x["day"]) == month for x in o.events(c)) for c in members)
            late = sum(any(o.is_late(t) and month_of(t["due"]) == month for t in o.tags(c)) for c in members)
            words += f" {kind}s {leaking} {late}"
        yield words
    for c in o.members(unit):
        for t in o.tags(c):
            if t["delay"] and t["detected"] <= last and (t["closed"] is None or t["closed"] >= first):
                yield f"delay {delay_words(t)} closed {or_hyphen(t['closed'])}"
    for stop in o.stops(unit):
        if stop[0] <= last and stop[1] >= first:
            yield f"shutdown {day_text(stop[0])} {day_text(stop[1])}"


def view(history, name, unit, number, day):
    """The text of a view, or ('no such', what). The number is that of a quarter, a half or stops."""
    o = Office(history, day)
    if unit not in o.units:
        return "no such", "unit"
    startup = o.units[unit]["day"]

    def listed(first, lines):
        lines = list(lines)
        return "".join(line + "\n" for line in [first] + lines + [f"end {len(lines)}"])

    def has_begun(quarter):
        return number > 0 and first_day(quarter_month(startup, quarter)) <= day

    if name == "due":
        def state(due, met):
            return "done " + day_text(met[0]) if met else "open" if day <= due else "missed"
        return listed(f"due {unit} {day_text(day)}", (
            f"{c} {CAUSES[cause - 1]} {day_text(due)} {state(due, met)}" for c in o.members(unit) for cause, due, met in o.duties(c)))
    tags = [t for c in o.members(unit) for t in o.tags(c)]
    if name == "tags":
        return listed(f"tags {unit} {day_text(day)}", (tag_words(t) for t in tags if t["closed"] is None or t["closed"] >= day - 366))
    if name == "delays":
        return listed(f"delays {unit} {day_text(day)}", (
            delay_words(t) for t in tags if t["closed"] is None and t["delay"] and t["delay"]["ground"] != "none"))
    if name == "route":
        if number == 0:
            return "no such", "stops"
        least = {c: min(d[1] for d in o.duties(c) if not d[2]) for c in o.members(unit) if any(not d[2] for d in o.duties(c))}
        order = sorted(least, key=lambda c: (least[c], c))
        parts = [order[i:i + number] for i in range(0, len(order), number)]
        return listed(f"route {unit} {day_text(day)} {number}", (
            f"route {i}: {' '.join(map(str, part))}" for i, part in enumerate(parts, 1)))
    if name == "percent":
        if not has_begun(number):
            return "no such", "quarter"
        leaking, monitored = o.tally(unit, number)
        good = "good" if o.is_good(unit, number) else "not good"
        skipped = "skipped" if o.is_skipped(unit, number) else "not skipped"
        return f"percent {unit} {number} leaking {leaking} monitored {monitored} {good} {skipped}\n"
    if not has_begun(2 * number - 1):
        return "no such", "half"
    return listed(f"report {o.units[unit]['name']} unit {unit} half {number} as of {day_text(day)}", report_lines(o, unit, number))


# ---- denials

SERVICES = {
    "valve": ("gas", "light", "heavy", "vacuum", "under300"), "relief": ("gas", "light", "heavy", "vacuum", "under300"),
    "pump": ("light", "heavy", "vacuum", "under300"), "compressor": ("gas", "vacuum", "under300"),
}
DESIGNATIONS = {"none": "VPCRHX", "nde": "VPC", "unsafe": "VP", "difficult": "V"}
REGISTER = ("unit", "component", "class", "retire", "election", "shutdown")


def suits(kind, entered):
    return entered["service"] in SERVICES[kind] and regime_of(kind, entered["service"]) in DESIGNATIONS[entered["designation"]]


def first_of(facts, kind, number):
    return next((f for f in facts if f["kind"] == kind and f[kind] == number), None)


def is_share_reached(facts, in_order, unit, day):
    """At least three in a hundred of the unit's valves in service on a day are difficult."""
    numbers = dict.fromkeys(f["component"] for f in facts if f["kind"] == "component")
    entries = [first_of(facts, "component", n) for n in numbers]
    valves = [f for f in entries if f["type"] == "valve" and f["unit"] == unit and f["day"] <= day and not any(
        g["kind"] == "retire" and g["component"] == f["component"] and g["day"] <= day for g in facts)]
    difficult = [f for f in valves if class_by(in_order, f["component"], day, f)["designation"] == "difficult"]
    return len(difficult) * 100 >= len(valves) * 3


def rules_against(history, batch, place):
    """The rules that deny the fact at a place of the batch."""
    f, kind, day = batch["facts"][place], batch["facts"][place]["kind"], batch["facts"][place]["day"]
    old = [g for b in history for g in b["facts"]]
    known, everything = old + batch["facts"][:place], old + batch["facts"]
    in_order = sorted(facts_of(history) + keyed(batch)[:place], key=lambda e: e[0])
    asks = kind in EVENTS or kind == "class"
    entry = first_of(known, "component", f["component"]) if asks else None
    if asks and entry is None:
        yield 1
        return
    service = class_by(in_order, f["component"], day, entry)["service"] if asks else None
    regime = regime_of(entry["type"], service) if asks else None
    if kind in ("reading", "visual") and service == "vacuum":
        yield 2
    if kind in ("reading", "visual") and service == "under300":
        yield 3
    if kind == "reading" and 0 in (f["instrument"], f["operator"]):
        yield 4
    if kind == "visual" and (entry["type"], service) != ("pump", "light"):
        yield 5
    if kind == "indication" and f["sort"] == "sensor" and (entry["type"], service) != ("compressor", "gas"):
        yield 6
    if kind == "release" and (entry["type"], service) != ("relief", "gas"):
        yield 7
    if kind == "indication" and f["sort"] == "evidence" and regime != "H":
        yield 8
    if kind == "delay":
        for rule, ground, made_for in ((9, "c", "valve"), (10, "d", "pump"), (11, "e", "valve")):
            if f["ground"] == ground and entry["type"] != made_for:
                yield rule
        if f["ground"] == "a" and f["signer"] == 0:
            yield 12
        if f["ground"] != "none" and f["expected"] is None:
            yield 13
    if kind == "election" and f["mode"] != 0 and day - f["notified"] < 90:
        yield 14
    if kind in ("component", "class") and f["class"]["designation"] == "difficult":
        own = f if kind == "component" else first_of(everything, "component", f["component"])
        unit = first_of(everything, "unit", own["unit"])
        whole = sorted(facts_of(history) + keyed(batch), key=lambda e: e[0])
        if own["type"] == "valve" and unit and not unit["older"] and is_share_reached(everything, whole, own["unit"], day):
            yield 15
    if kind in REGISTER and batch["handheld"] != 0:
        yield 16
    unit = first_of(known, "unit", f["unit"]) if kind in ("component", "election", "shutdown") else None
    if kind in ("component", "election", "shutdown") and unit is None:
        yield 17
    if kind in ("unit", "component") and first_of(known, kind, f[kind]):
        yield 18
    if day > 46751:
        yield 19
    if kind == "election" and unit:
        quarter = quarter_of(unit["day"], month_of(day))
        if quarter is None or quarter_first(unit["day"], quarter) != day:
            yield 20
    if (kind == "component" and not suits(f["type"], f["class"])) or (kind == "class" and not suits(entry["type"], f["class"])):
        yield 21


def denial(history, batch):
    """The place from 1 of the first fact that is denied, and its smallest rule; None if the batch passes."""
    for place in range(len(batch["facts"])):
        rules = list(rules_against(history, batch, place))
        if rules:
            return place + 1, min(rules)
    return None
