// The rule's functions in plain Rust, used by law.rs and views.rs.
// Each function makes one pass over its input, allocates once and searches by halving if the input is ordered.

#[derive(Clone, Copy, PartialEq, Eq, PartialOrd, Ord)]
struct Key { day: u16, minute: u16, handheld: u16, number: u32, index: u16 }

#[derive(Clone, Copy, PartialEq, Eq)]
enum Kind { Valve, Pump, Compressor, Relief }
#[derive(Clone, Copy, PartialEq, Eq)]
enum Service { Gas, Light, Heavy, Vacuum, Under300 }
#[derive(Clone, Copy, PartialEq, Eq)]
enum Designation { Plain, Nde, Unsafe, Difficult }
#[derive(Clone, Copy, PartialEq, Eq)]
enum Regime { Valve, Pump, Compressor, Relief, Heavy, LeftOut }
#[derive(Clone, Copy, PartialEq)]
struct Class { service: Service, designation: Designation, plan: u8, month: u8 }

#[derive(Clone, Copy, PartialEq)]
enum Body {
    Unit { unit: u8, older: bool, name: [u8; 12] },
    Component { component: u16, unit: u8, kind: Kind, monomer: bool, replaces: bool, class: Class },
    Class { component: u16, class: Class },
    Retire { component: u16 },
    Election { unit: u8, mode: u8, notified: u16 },
    Shutdown { unit: u8, days: u16 },
    Calibration { instrument: u16, gas: u32 },
    Precision { instrument: u16, value: u32, readings: (u32, u32, u32) },
    Drift { instrument: u16, value: u32, readings: (u32, u32, u32) },
    Reading { component: u16, instrument: u16, operator: u16, routine: bool, ppm: u32, background: u32 },
    Visual { component: u16, state: State },
    Attempt { component: u16, complete: bool },
    Delay { component: u16, ground: u8, signer: u16, expected: Option<u16> },
    Release { component: u16 },
    Indication { component: u16, sensor: bool, present: bool },
}
#[derive(Clone, Copy, PartialEq, Eq)]
enum State { Dry, Drips, Designated }
#[derive(Clone, Copy, PartialEq)]
struct Fact { day: u16, minute: u16, body: Body }

#[derive(Clone, Copy)]
struct Equipment { component: u16, unit: u8, kind: Kind, monomer: bool, replaces: bool, begin: u16, retired: Option<u16>, class: Class }
#[derive(Clone, Copy)]
struct Event { key: Key, what: Happening }
#[derive(Clone, Copy)]
enum Happening {
    Read { ppm: u32, background: u32, routine: bool, counts: bool, below: bool, leak: bool },
    Look { drips: bool, designated: bool, leak: bool },
    Attempt { complete: bool },
    Delay { ground: u8, signer: u16, expected: Option<u16> },
    Release,
    Sensor { present: bool, leak: bool },
    Evidence { present: bool },
    Retire,
}
#[derive(Clone, Copy, PartialEq, Eq)]
enum Fitness { Fit, NoCalibration, GasTooHigh, NoPrecision, Voided { drift: Key } }
#[derive(Clone, Copy)]
struct Span { detected: Key, attempted: Option<u16>, closed: Option<Key>, removable: bool }
#[derive(Clone, Copy)]
struct Mark { leaking: bool, monitored: bool }
#[derive(Clone, Copy)]
struct Duty { component: u16, cause: u8, due: u16, met: Option<Key> }

// ---- the calendar

const LAST_DAY: u32 = 47_481;
const LAST_MONTH: u32 = 25_199;

fn month_and_place(day: u16) -> (u32, u32) {
    let quarters = 4 * (u32::from(day) - 11_017) + 3;
    let fifths = 5 * (quarters % 1_461 / 4) + 2;
    (24_002 + 12 * (quarters / 1_461) + fifths / 153, fifths % 153 / 5)
}

fn month_of(day: u16) -> u32 { month_and_place(day).0 }

fn first_day(month: u32) -> u16 {
    let since = month - 24_002;
    (11_017 + 1_461 * (since / 12) / 4 + (153 * (since % 12) + 2) / 5) as u16
}

fn last_day(month: u32) -> u16 { if month > LAST_MONTH { LAST_DAY as u16 } else { first_day(month + 1) - 1 } }
fn plus_days(day: u16, days: u16) -> u16 { (u32::from(day) + u32::from(days)).min(LAST_DAY) as u16 }

fn plus_months(day: u16, months: u32) -> u16 {
    let (month, place) = month_and_place(day);
    if month + months > LAST_MONTH { return LAST_DAY as u16; }
    let first = first_day(month + months);
    first + (place as u16).min(first_day(month + months + 1) - first - 1)
}

/// The first month of quarter 1.
fn first_quarter(startup: u16) -> u32 { month_of(startup + 181) - 3 }

// ---- events

fn regime(kind: Kind, service: Service) -> Regime {
    match (kind, service) {
        (Kind::Valve, Service::Gas | Service::Light) => Regime::Valve,
        (Kind::Pump, Service::Light) => Regime::Pump,
        (Kind::Compressor, Service::Gas) => Regime::Compressor,
        (Kind::Relief, Service::Gas) => Regime::Relief,
        (Kind::Valve | Kind::Pump, Service::Heavy) | (Kind::Relief, Service::Light | Service::Heavy) => Regime::Heavy,
        _ => Regime::LeftOut,
    }
}

impl Equipment {
    fn serves(&self, day: u16) -> bool { self.begin <= day && self.retired.is_none_or(|first| first > day) }

    fn class_on(&self, classes: &[(Key, Class)], day: u16) -> Class {
        let count = classes.partition_point(|entered| entered.0.day <= day);
        if count == 0 { self.class } else { classes[count - 1].1 }
    }

    fn limit(&self, regime: Regime) -> u32 {
        match regime {
            Regime::Pump => if self.monomer { 5_000 } else { 2_000 },
            Regime::Heavy => 10_000,
            _ => 500,
        }
    }

    /// A first monitoring is owed, judged on a day.
    fn owes_first(&self, classes: &[(Key, Class)], startup: u16, day: u16) -> bool {
        startup < self.begin && !self.replaces && self.serves(day)
            && matches!(regime(self.kind, self.class_on(classes, day).service), Regime::Valve | Regime::Pump)
            && self.class_on(classes, self.begin).designation == Designation::Plain
    }

    fn happening(&self, class: &Class, day: u16, body: &Body, fitness: &mut std::slice::Iter<Fitness>) -> Option<Happening> {
        let serves = self.serves(day);
        let regime = regime(self.kind, class.service);
        let leaks = serves && class.designation != Designation::Nde;
        Some(match *body {
            Body::Reading { routine, ppm, background, .. } => {
                let fit = fitness.next().is_some_and(|fitness| *fitness == Fitness::Fit);
                let counts = serves && regime != Regime::LeftOut && fit;
                let below = ppm < self.limit(regime);
                let leak = counts && !below && leaks && matches!(regime, Regime::Valve | Regime::Pump | Regime::Heavy);
                Happening::Read { ppm, background, routine, counts, below: counts && below, leak }
            }
            Body::Visual { state, .. } => {
                let designated = state == State::Designated;
                Happening::Look { drips: state != State::Dry, designated, leak: designated && leaks && regime == Regime::Pump }
            }
            Body::Attempt { complete, .. } => Happening::Attempt { complete },
            Body::Delay { ground, signer, expected, .. } => Happening::Delay { ground, signer, expected },
            Body::Release { .. } => Happening::Release,
            Body::Indication { sensor: true, present, .. } => {
                Happening::Sensor { present, leak: present && leaks && regime == Regime::Compressor }
            }
            Body::Indication { present, .. } => Happening::Evidence { present },
            Body::Retire { .. } => Happening::Retire,
            _ => return None,
        })
    }
}

fn events_of(item: &Equipment, classes: &[(Key, Class)], facts: &[(Key, Fact)], fitness: &[Fitness]) -> Vec<Event> {
    let mut events = Vec::with_capacity(facts.len());
    let mut fitness = fitness.iter();
    let (mut class, mut place) = (item.class, 0);
    for (key, fact) in facts {
        while place < classes.len() && classes[place].0.day <= key.day {
            class = classes[place].1;
            place += 1;
        }
        if let Some(what) = item.happening(&class, key.day, &fact.body, &mut fitness) {
            events.push(Event { key: *key, what });
        }
    }
    events
}

// ---- tags

/// The open leaks of one sort: whether one is delayed, and the first and last day of those that are not.
#[derive(Clone, Copy, Default)]
struct Leaks { delayed: bool, waiting: Option<(u16, u16)> }

impl Leaks {
    fn any(&self) -> bool { self.delayed || self.waiting.is_some() }
    fn open(&mut self, day: u16) { self.waiting = Some((self.waiting.map_or(day, |days| days.0), day)); }
    fn delay(&mut self, day: u16) {
        if let Some((first, last)) = self.waiting {
            self.delayed |= day <= last + 15;
            self.waiting = if day <= first + 15 { None } else { Some((first, first)) };
        }
    }
}

fn spans_of(kind: Kind, events: &[Event]) -> Vec<Span> {
    let mut spans: Vec<Span> = Vec::new();
    let (mut readings, mut drips, mut sensors) = (Leaks::default(), Leaks::default(), Leaks::default());
    let mut attempted = false;
    let (mut below_month, mut below_before) = (0, false);
    // Spans from here on have no attempt yet.
    let mut unattempted = 0;
    let mut is_open = false;
    // The month, whether it has a reading below the leak definition and whether it has a leak; the last clean month before it
    // and the last pair of them.
    let (mut month, mut read, mut leaked, mut clean, mut pair) = (0, false, false, 0, 0);
    let twice = matches!(kind, Kind::Valve | Kind::Pump);
    for event in events {
        let day = event.key.day;
        let mut leak = false;
        match event.what {
            Happening::Read { routine, below, leak: leaks, .. } => {
                leak = leaks;
                if below || leaks {
                    let this = month_of(day);
                    if this != month {
                        if read && !leaked {
                            if month - 1 == clean { pair = clean; }
                            clean = month;
                        }
                        (month, read, leaked) = (this, false, false);
                    }
                    read |= routine && below;
                    leaked |= leaks;
                }
                if below {
                    if attempted {
                        readings = Leaks::default();
                        drips = Leaks::default();
                    }
                    let second = if month == below_month { below_before } else { month - 1 == below_month };
                    if twice && second {
                        readings.delayed = false;
                        drips.delayed = false;
                        sensors.delayed = false;
                    }
                    (below_month, below_before) = (month, second);
                }
                if leaks { readings.open(day); }
            }
            Happening::Look { drips: wet, leak: leaks, .. } => {
                leak = leaks;
                if !wet && attempted { drips = Leaks::default(); }
                if leaks { drips.open(day); }
            }
            Happening::Sensor { leak: leaks, .. } => {
                leak = leaks;
                if leaks { sensors.open(day); }
            }
            Happening::Attempt { complete } => {
                if complete { sensors = Leaks::default(); }
                attempted = true;
                for span in &mut spans[unattempted..] { span.attempted = Some(day); }
                unattempted = spans.len();
            }
            Happening::Delay { ground: 1 | 3 | 4 | 5, .. } => {
                readings.delay(day);
                drips.delay(day);
                sensors.delay(day);
            }
            Happening::Retire => {
                readings = Leaks::default();
                drips = Leaks::default();
                sensors = Leaks::default();
            }
            _ => {}
        }
        if leak {
            attempted = false;
            (below_month, below_before) = (0, false);
            if !matches!(event.what, Happening::Read { .. }) {
                let this = month_of(day);
                if this != month {
                    if read && !leaked {
                        if month - 1 == clean { pair = clean; }
                        clean = month;
                    }
                    (month, read) = (this, false);
                }
                leaked = true;
            }
            if !is_open {
                spans.push(Span { detected: event.key, attempted: None, closed: None, removable: false });
                is_open = true;
            }
        } else if is_open && !readings.any() && !drips.any() && !sensors.any() {
            spans.last_mut().unwrap().closed = Some(event.key);
            is_open = false;
        }
    }
    if read && !leaked && month - 1 == clean { pair = clean; }
    for span in &mut spans {
        span.removable = span.closed.is_some_and(|key| kind != Kind::Valve || month_of(key.day) <= pair);
    }
    spans
}

// ---- quarters

#[allow(clippy::too_many_arguments)]
fn marks_to(item: &Equipment, classes: &[(Key, Class)], startup: u16, events: &[Event], delayed: &[bool], quarters: u16, day: u16) -> Vec<Mark> {
    let first = first_quarter(startup);
    let mut marks = vec![Mark { leaking: false, monitored: false }; usize::from(quarters)];
    if item.kind != Kind::Valve { return marks; }
    for event in events {
        if let Happening::Read { routine: true, counts: true, leak, .. } = event.what {
            let Some(past) = month_of(event.key.day).checked_sub(first) else { continue };
            if let Some(mark) = marks.get_mut((past / 3) as usize) {
                mark.monitored = true;
                mark.leaking |= leak;
            }
        }
    }
    let due = plus_days(item.begin, 30);
    let missed = due < day && item.owes_first(classes, startup, due) && !events.iter().any(|event| {
        item.begin <= event.key.day && event.key.day <= due && matches!(event.what, Happening::Read { routine: true, counts: true, .. })
    });
    let missed = if missed { month_of(item.begin).checked_sub(first).map(|past| past / 3) } else { None };
    let (mut class, mut place) = (item.class, 0);
    for (quarter, mark) in (0..).zip(&mut marks) {
        let judging = last_day(first + 3 * quarter + 2).min(day);
        while place < classes.len() && classes[place].0.day <= judging {
            class = classes[place].1;
            place += 1;
        }
        let counted = regime(item.kind, class.service) == Regime::Valve && class.designation != Designation::Nde;
        let other = delayed.get(quarter as usize).is_some_and(|is| *is) || missed == Some(quarter);
        mark.leaking = counted && (mark.leaking || other);
        mark.monitored = counted && (mark.monitored || other);
    }
    marks
}

// ---- duties

struct Asked<'a> { item: &'a Equipment, classes: &'a [(Key, Class)], startup: u16, events: &'a [Event], skipped: &'a [bool], day: u16 }
struct Judged { serves: bool, regime: Regime, class: Class }

fn is_routine(what: &Happening) -> bool { matches!(*what, Happening::Read { routine: true, counts: true, .. }) }
fn is_near(what: &Happening) -> bool {
    matches!(*what, Happening::Read { counts: true, ppm, background, .. } if ppm.saturating_sub(background) < 500)
}

impl Asked<'_> {
    fn judged(&self, due: u16) -> Judged {
        let day = due.min(self.day);
        let class = self.item.class_on(self.classes, day);
        Judged { serves: self.item.serves(day), regime: regime(self.item.kind, class.service), class }
    }

    fn met(&self, first: u16, due: u16, meets: impl Fn(&Happening) -> bool) -> Option<Key> {
        let from = self.events.partition_point(|event| event.key.day < first);
        self.events[from..].iter().take_while(|event| event.key.day <= due).find(|event| meets(&event.what)).map(|event| event.key)
    }

    fn put(&self, duties: &mut Vec<Duty>, cause: u8, first: u16, due: u16, met: Option<Key>) {
        if first <= self.day && (self.day <= due || (met.is_none() && u32::from(self.day) <= u32::from(due) + 366)) {
            duties.push(Duty { component: self.item.component, cause, due, met });
        }
    }

    fn has_designation(&self, which: impl Fn(Designation) -> bool) -> bool {
        which(self.item.class.designation) || self.classes.iter().any(|entered| which(entered.1.designation))
    }

    fn put_months(&self, duties: &mut Vec<Duty>, low: u32, end: u32) {
        let first_quarter = first_quarter(self.startup);
        let mut quarterlies = Vec::new();
        let (mut leak, mut below, mut pair, mut place) = (0, 0, None, 0);
        for month in low..end {
            let first = first_day(month);
            while place < self.events.len() && self.events[place].key.day < first {
                let event = &self.events[place];
                place += 1;
                match event.what {
                    Happening::Read { leak: true, .. } | Happening::Look { leak: true, .. } | Happening::Sensor { leak: true, .. } => {
                        (leak, below, pair) = (month_of(event.key.day), 0, None);
                    }
                    Happening::Read { routine: true, below: true, .. } => {
                        let this = month_of(event.key.day);
                        if this > leak {
                            if pair.is_none() && this - 1 == below { pair = Some(below); }
                            below = this;
                        }
                    }
                    _ => {}
                }
            }
            let judged = self.judged(last_day(month));
            if !judged.serves || judged.class.designation != Designation::Plain { continue; }
            let past = month.checked_sub(first_quarter);
            let is_quarterly = past.is_some_and(|past| pair.is_some_and(|pair| pair + 1 < month - past % 3));
            let due = last_day(month);
            if judged.regime == Regime::Pump || (judged.regime == Regime::Valve && !is_quarterly) {
                self.put(duties, 2, first, due, self.met(first, due, is_routine));
            } else if judged.regime == Regime::Valve && is_quarterly {
                let past = past.unwrap_or(0);
                if u32::from(judged.class.month) == past % 3 + 1 && !self.skipped.get((past / 3) as usize).is_some_and(|is| *is) {
                    self.put(&mut quarterlies, 3, first, due, self.met(first, due, is_routine));
                }
            }
        }
        duties.append(&mut quarterlies);
    }

    fn put_years(&self, duties: &mut Vec<Duty>, low: u32, end: u32) {
        for year in low..end {
            let (first, due) = (first_day(12 * year), last_day(12 * year + 11));
            let judged = self.judged(due);
            let valve = judged.regime == Regime::Valve;
            match judged.class.designation {
                Designation::Difficult if judged.serves && valve => self.put(duties, 4, first, due, self.met(first, due, is_routine)),
                Designation::Nde if judged.serves && (valve || matches!(judged.regime, Regime::Pump | Regime::Compressor)) => {
                    self.put(duties, 4, first, due, self.met(first, due, |what| is_routine(what) && is_near(what)));
                }
                _ => {}
            }
        }
    }

    fn put_planned(&self, duties: &mut Vec<Duty>, low: u32, end: u32) {
        let begin = month_of(self.item.begin);
        for month in low..end {
            let due = last_day(month);
            let judged = self.judged(due);
            let plan = u32::from(judged.class.plan);
            let applies = judged.class.designation == Designation::Unsafe && matches!(judged.regime, Regime::Valve | Regime::Pump);
            if !judged.serves || !applies || plan == 0 || (month - begin) % plan != 0 || month_of(self.day) + plan < month + 1 { continue; }
            let first = first_day(month + 1 - plan);
            self.put(duties, 5, first, due, self.met(first, due, is_routine));
        }
    }

    fn put_weeks(&self, duties: &mut Vec<Duty>, low: u16, end: u16) {
        for week in low..end {
            let first = 7 * week - 3;
            let due = plus_days(first, 6);
            let judged = self.judged(due);
            if judged.serves && judged.regime == Regime::Pump && judged.class.designation == Designation::Plain {
                self.put(duties, 6, first, due, self.met(first, due, |what| matches!(what, Happening::Look { .. })));
            }
        }
    }

    /// The duties that follow events of a sort, with what meets them.
    fn put_after(&self, duties: &mut Vec<Duty>, cause: u8, asks: impl Fn(&Event, bool) -> bool, meets: impl Fn(&Happening) -> bool) {
        let from = self.events.partition_point(|event| u32::from(event.key.day) + 371 < u32::from(self.day));
        let (mut wait, mut repeat) = (false, false);
        let mut next = from;
        for (place, event) in self.events.iter().enumerate().skip(if cause == 7 { 0 } else { from }) {
            if place >= from && asks(event, repeat) {
                let due = plus_days(event.key.day, 5);
                next = next.max(place + 1);
                while next < self.events.len() && !meets(&self.events[next].what) { next += 1; }
                let met = self.events.get(next).filter(|event| event.key.day <= due).map(|event| event.key);
                self.put(duties, cause, event.key.day, due, met);
            }
            match event.what {
                Happening::Look { drips: false, .. } => (wait, repeat) = (false, false),
                Happening::Look { drips: true, .. } => wait = true,
                Happening::Read { below: true, .. } => repeat |= wait,
                _ => {}
            }
        }
    }
}

fn duties_of(item: &Equipment, classes: &[(Key, Class)], startup: u16, events: &[Event], skipped: &[bool], day: u16) -> Vec<Duty> {
    let asked = Asked { item, classes, startup, events, skipped, day };
    let mut duties = Vec::new();
    let due = plus_days(item.begin, 30);
    if item.owes_first(classes, startup, due.min(day)) {
        asked.put(&mut duties, 1, item.begin, due, asked.met(item.begin, due, is_routine));
    }
    let earliest = item.begin.max(day.saturating_sub(366));
    let low = if month_of(item.begin) < month_of(earliest) { month_of(earliest) } else { month_of(item.begin) + 1 };
    if matches!(item.kind, Kind::Valve | Kind::Pump) { asked.put_months(&mut duties, low, month_of(day) + 1); }
    if asked.has_designation(|which| matches!(which, Designation::Nde | Designation::Difficult)) {
        asked.put_years(&mut duties, (month_of(due) / 12).max(month_of(earliest) / 12), month_of(day) / 12 + 1);
    }
    if asked.has_designation(|which| which == Designation::Unsafe) { asked.put_planned(&mut duties, low, month_of(day) + 60); }
    if item.kind == Kind::Pump {
        let week = |day: u16| (day + 3) / 7;
        asked.put_weeks(&mut duties, if week(item.begin) < week(earliest) { week(earliest) } else { week(item.begin) + 1 }, week(day) + 1);
        asked.put_after(&mut duties, 7, |event, repeat| {
            !repeat && matches!(event.what, Happening::Look { drips: true, designated: false, .. }) && {
                let judged = asked.judged(event.key.day);
                judged.serves && judged.regime == Regime::Pump && judged.class.designation == Designation::Plain
            }
        }, |what| matches!(what, Happening::Read { counts: true, .. } | Happening::Look { designated: true, .. }));
    }
    if item.kind == Kind::Relief {
        asked.put_after(&mut duties, 8, |event, _| {
            let judged = asked.judged(event.key.day);
            matches!(event.what, Happening::Release) && judged.serves && judged.regime == Regime::Relief
        }, is_near);
    }
    if item.kind != Kind::Compressor {
        asked.put_after(&mut duties, 9, |event, _| {
            matches!(event.what, Happening::Evidence { present: true }) && {
                let judged = asked.judged(event.key.day);
                judged.serves && judged.regime == Regime::Heavy
            }
        }, |what| matches!(what, Happening::Read { counts: true, .. } | Happening::Evidence { present: false }));
    }
    duties
}

// ---- instruments

fn sum3(readings: (u32, u32, u32)) -> u64 { u64::from(readings.0) + u64::from(readings.1) + u64::from(readings.2) }

/// Calibrations, the days of passed precision tests, and failed drift assessments, each in key order.
struct Instrument { calibrations: Vec<(Key, u32)>, tests: Vec<Key>, drifts: Vec<(Key, u64, u64)> }

impl Instrument {
    fn new(facts: &[(Key, Fact)]) -> Instrument {
        let mut made = Instrument { calibrations: Vec::new(), tests: Vec::new(), drifts: Vec::new() };
        for (key, fact) in facts {
            match fact.body {
                Body::Calibration { gas, .. } => made.calibrations.push((*key, gas)),
                Body::Precision { value, readings, .. } => {
                    let (known, sum) = (3 * u64::from(value), sum3(readings));
                    if known.abs_diff(sum) * 10 <= known { made.tests.push(*key); }
                }
                Body::Drift { value, readings, .. } => {
                    let (known, sum) = (3 * u64::from(value), sum3(readings));
                    if known < known.saturating_sub(sum) * 10 { made.drifts.push((*key, known, sum)); }
                }
                _ => {}
            }
        }
        made
    }

    fn fit(&self, fact: &Fact, key: &Key, limit: u32) -> Fitness {
        let Body::Reading { ppm, .. } = fact.body else { return Fitness::NoCalibration };
        let from = self.calibrations.partition_point(|made| made.0.day < key.day);
        let (mut calibrated, mut within, mut next) = (false, false, None);
        for (made, gas) in &self.calibrations[from..] {
            if made.day != key.day { break; }
            if made < key {
                calibrated = true;
                within |= *gas <= limit + 2_000;
            } else if made > key {
                next = Some(made);
                break;
            }
        }
        if !calibrated { return Fitness::NoCalibration; }
        if !within { return Fitness::GasTooHigh; }
        let count = self.tests.partition_point(|tested| tested < key);
        if count == 0 || key.day > plus_months(self.tests[count - 1].day, 3) { return Fitness::NoPrecision; }
        if ppm < limit {
            let from = self.drifts.partition_point(|drift| drift.0 <= *key);
            for (drift, known, sum) in &self.drifts[from..] {
                if drift.day != key.day || next.is_some_and(|next| next < drift) { break; }
                if u64::from(limit) * sum < u64::from(ppm) * known { return Fitness::Voided { drift: *drift }; }
            }
        }
        Fitness::Fit
    }
}

// ---- routes

fn routes(duties: &[Duty], stops: u16) -> Vec<Vec<u16>> {
    let mut days = vec![u16::MAX; 65_536];
    for duty in duties {
        if duty.met.is_none() {
            let day = &mut days[usize::from(duty.component)];
            *day = (*day).min(duty.due);
        }
    }
    let mut visits: Vec<u32> = (0..).zip(&days).filter(|visit| *visit.1 != u16::MAX).map(|(number, day)| u32::from(*day) << 16 | number).collect();
    visits.sort_unstable();
    visits.chunks(usize::from(stops)).map(|part| part.iter().map(|visit| *visit as u16).collect()).collect()
}

// ---- delays

#[derive(Clone, Copy)]
struct DelayEntry { key: Key, ground: u8, signer: u16, expected: Option<u16> }
#[derive(Clone, Copy)]
struct Stop { first: u16, last: u16 }
#[derive(Clone, Copy)]
enum Until { Date(u16), Shutdown, WhileIsolated, NoDate }

fn repair_of(detected: u16, delays: &[DelayEntry], attempts: &[u16], stops: &[Stop]) -> (Until, Option<usize>) {
    let (mut due, mut counted) = (Until::Date(plus_days(detected, 15)), None);
    if delays.is_empty() { return (due, None); }
    let end = |stop: &Stop| {
        let attempted = attempts.iter().any(|day| stop.first <= *day && *day <= stop.last);
        Until::Date(if attempted { plus_days(stop.last, 16) } else { stop.last })
    };
    let mut later = stops.iter().filter(|stop| stop.first > detected);
    let (first, second) = (later.next(), later.next());
    let second = match (first, second) {
        (Some(first), Some(second)) if second.first < plus_months(first.first, 6) => later.next(),
        _ => second,
    };
    let (first, second) = (first.map_or(Until::Shutdown, end), second.map_or(Until::Shutdown, end));
    for (place, delay) in delays.iter().enumerate() {
        if matches!(due, Until::Date(due) if due < delay.key.day) { continue; }
        counted = Some(place);
        due = match delay.ground {
            0 => Until::Date(plus_days(detected, 15).max(delay.key.day)),
            1 => first,
            2 => Until::WhileIsolated,
            3 => Until::NoDate,
            4 => Until::Date(plus_months(detected, 6)),
            _ => second,
        };
    }
    (due, counted)
}
