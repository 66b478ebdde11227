// A plain Rust register with the rules by which a batch is denied: the yardstick of denials.py.
// usage: denials WORK SORT FACTS    with the same words as crates/denials_bench
use std::collections::{HashMap, HashSet};

#[derive(Clone, Copy, PartialEq, Eq, PartialOrd, Ord)]
struct Key { day: u16, minute: u16, handheld: u16, number: u32, index: u16 }

#[derive(Clone, Copy, PartialEq, Eq)]
enum Kind { Valve, Pump, Compressor, Relief }
#[derive(Clone, Copy, PartialEq, Eq)]
enum Service { Gas, Light, Heavy, Vacuum, Under300 }
#[derive(Clone, Copy, PartialEq, Eq)]
enum Designation { Plain, Nde, Unsafe, Difficult }
#[derive(Clone, Copy, PartialEq, Eq)]
enum Regime { Valve, Pump, Compressor, Relief, Heavy, LeftOut }
#[derive(Clone, Copy)]
struct Class { service: Service, designation: Designation, plan: u8, month: u8 }

#[derive(Clone, Copy)]
enum Body {
    Unit { unit: u8, older: bool, name: [u8; 12] },
    Component { component: u16, unit: u8, kind: Kind, monomer: bool, replaces: bool, class: Class },
    Class { component: u16, class: Class },
    Retire { component: u16 },
    Election { unit: u8, mode: u8, notified: u16 },
    Shutdown { unit: u8, days: u16 },
    Calibration { instrument: u16, gas: u32 },
    Precision { instrument: u16, value: u32, readings: (u32, u32, u32) },
    Drift { instrument: u16, value: u32, readings: (u32, u32, u32) },
    Reading { component: u16, instrument: u16, operator: u16, purpose: u8, ppm: u32, background: u32 },
    Visual { component: u16, state: u8 },
    Attempt { component: u16, complete: bool },
    Delay { component: u16, ground: u8, signer: u16, expected: Option<u16> },
    Release { component: u16 },
    Indication { component: u16, sensor: bool, present: bool },
}
use Body::{Attempt, Calibration, Class as ClassFact, Component, Delay, Election, Indication, Reading, Release, Retire, Shutdown, Unit, Visual};

#[derive(Clone, Copy)]
struct Fact { day: u16, minute: u16, body: Body }
struct Batch { handheld: u16, number: u32, facts: Vec<Fact> }

#[derive(Clone, Copy)]
struct Entered { unit: u8, kind: Kind, begin: u16, class: Class }
#[derive(Clone, Copy)]
struct UnitEntry { startup: u16, older: bool }

#[derive(Default)]
struct Slot { entered: Option<Entered>, retired: Option<u16>, classes: Vec<(Key, Class)> }
#[derive(Default)]
struct Register { slots: Vec<Slot>, units: HashMap<u8, UnitEntry>, members: HashMap<u8, Vec<u16>> }

#[derive(Debug, PartialEq)]
enum Verdict { Pass, Denied(u16, u8), Full(u64) }

fn key_of(batch: &Batch, index: usize) -> Key {
    let fact = &batch.facts[index];
    Key { day: fact.day, minute: fact.minute, handheld: batch.handheld, number: batch.number, index: index as u16 }
}

fn entry_named(body: &Body) -> Option<u16> {
    match *body { Component { component, .. } | ClassFact { component, .. } | Retire { component } => Some(component), _ => None }
}

fn asked_for(body: &Body) -> Option<u16> {
    match *body {
        ClassFact { component, .. } | Retire { component } | Reading { component, .. } | Visual { component, .. }
        | Attempt { component, .. } | Delay { component, .. } | Release { component } | Indication { component, .. } => Some(component),
        _ => None,
    }
}

fn is_entry(body: &Body) -> bool {
    matches!(body, Unit { .. } | Component { .. } | ClassFact { .. } | Retire { .. } | Election { .. } | Shutdown { .. })
}

fn regime(kind: Kind, service: Service) -> Regime {
    match (kind, service) {
        (Kind::Valve, Service::Gas | Service::Light) => Regime::Valve,
        (Kind::Pump, Service::Light) => Regime::Pump,
        (Kind::Compressor, Service::Gas) => Regime::Compressor,
        (Kind::Relief, Service::Gas) => Regime::Relief,
        (Kind::Valve | Kind::Pump, Service::Heavy) | (Kind::Relief, Service::Light | Service::Heavy) => Regime::Heavy,
        _ => Regime::LeftOut,
    }
}

fn suits(kind: Kind, class: &Class) -> bool {
    let service = !matches!((kind, class.service), (Kind::Pump, Service::Gas) | (Kind::Compressor, Service::Light | Service::Heavy));
    service && match class.designation {
        Designation::Plain => true,
        Designation::Nde => matches!(regime(kind, class.service), Regime::Valve | Regime::Pump | Regime::Compressor),
        Designation::Unsafe => matches!(regime(kind, class.service), Regime::Valve | Regime::Pump),
        Designation::Difficult => regime(kind, class.service) == Regime::Valve,
    }
}

/// The facts of a batch that name a component as entries, by their places, and those that enter units.
#[derive(Default)]
struct Overlay { places: HashMap<u16, Vec<u16>>, units: HashMap<u8, UnitEntry> }

impl Overlay {
    fn add(&mut self, index: usize, fact: &Fact) {
        if let Some(component) = entry_named(&fact.body) {
            self.places.entry(component).or_default().push(index as u16);
        }
        if let Unit { unit, older, .. } = fact.body {
            self.units.entry(unit).or_insert(UnitEntry { startup: fact.day, older });
        }
    }
}

struct Known<'a> { register: &'a Register, batch: &'a Batch, overlay: &'a Overlay }

impl Known<'_> {
    fn slot(&self, component: u16) -> Option<&Slot> { self.register.slots.get(usize::from(component)) }

    fn places(&self, component: u16) -> &[u16] {
        if self.overlay.places.is_empty() { return &[]; }
        self.overlay.places.get(&component).map_or(&[], |places| places.as_slice())
    }

    fn component(&self, component: u16) -> Option<Entered> {
        if let Some(item) = self.slot(component).and_then(|slot| slot.entered) { return Some(item); }
        self.places(component).iter().find_map(|at| match self.batch.facts[usize::from(*at)] {
            Fact { day, body: Component { unit, kind, class, .. }, .. } => Some(Entered { unit, kind, begin: day, class }),
            _ => None,
        })
    }

    fn class_on(&self, component: u16, item: &Entered, day: u16) -> Class {
        let mut last = self.slot(component).and_then(|slot| {
            let count = slot.classes.partition_point(|entry| entry.0.day <= day);
            if count == 0 { None } else { Some(slot.classes[count - 1]) }
        });
        for at in self.places(component) {
            let fact = &self.batch.facts[usize::from(*at)];
            if let ClassFact { class, .. } = fact.body {
                let key = key_of(self.batch, usize::from(*at));
                if fact.day <= day && last.is_none_or(|old| old.0 <= key) { last = Some((key, class)); }
            }
        }
        last.map_or(item.class, |entry| entry.1)
    }

    fn is_retired(&self, component: u16, day: u16) -> bool {
        self.slot(component).and_then(|slot| slot.retired).is_some_and(|first| first <= day)
            || self.places(component).iter().any(|at| {
                let fact = &self.batch.facts[usize::from(*at)];
                matches!(fact.body, Retire { .. }) && fact.day <= day
            })
    }

    fn unit(&self, unit: u8) -> Option<UnitEntry> { self.register.units.get(&unit).or_else(|| self.overlay.units.get(&unit)).copied() }

    fn is_reached(&self, unit: u8, day: u16) -> bool {
        let none = Vec::new();
        let members = self.register.members.get(&unit).unwrap_or(&none);
        let new = self.overlay.places.keys().filter(|number| self.slot(**number).is_none_or(|slot| slot.entered.is_none()));
        let (mut valves, mut difficult) = (0u64, 0u64);
        for number in members.iter().chain(new) {
            let Some(item) = self.component(*number) else { continue };
            if item.unit == unit && item.kind == Kind::Valve && item.begin <= day && !self.is_retired(*number, day) {
                valves += 1;
                difficult += u64::from(self.class_on(*number, &item, day).designation == Designation::Difficult);
            }
        }
        difficult * 100 >= valves * 3
    }
}

fn month_of(day: i64) -> i64 {
    let era_day = day + 719_468;
    let (era, place) = (era_day / 146_097, era_day % 146_097);
    let year = (place - place / 1_460 + place / 36_524 - place / 146_096) / 365;
    let of_year = place - (365 * year + year / 4 - year / 100);
    let march = (5 * of_year + 2) / 153;
    (year + era * 400) * 12 + march + 2
}

fn begins_quarter(startup: u16, day: u16) -> bool {
    let first = month_of(i64::from(startup) + 181) - 3;
    let month = month_of(i64::from(day));
    month >= first && (month - first) % 3 == 0 && month_of(i64::from(day) - 1) != month
}

fn least_rule(fact: &Fact, known: &Known, whole: &Overlay, passed: &mut HashSet<(u8, u16)>) -> Option<u8> {
    let body = &fact.body;
    let item = asked_for(body).map(|component| (component, known.component(component)));
    if matches!(item, Some((_, None))) { return Some(1); }
    let item = item.and_then(|(component, item)| item.map(|item| (item.kind, known.class_on(component, &item, fact.day))));
    if let (Some((kind, class)), body) = (item, body) {
        let regime = regime(kind, class.service);
        let denied = match *body {
            Reading { .. } | Visual { .. } if class.service == Service::Vacuum => Some(2),
            Reading { .. } | Visual { .. } if class.service == Service::Under300 => Some(3),
            Reading { instrument, operator, .. } if instrument == 0 || operator == 0 => Some(4),
            Visual { .. } if regime != Regime::Pump => Some(5),
            Indication { sensor: true, .. } if regime != Regime::Compressor => Some(6),
            Release { .. } if regime != Regime::Relief => Some(7),
            Indication { sensor: false, .. } if regime != Regime::Heavy => Some(8),
            Delay { ground: 3, .. } if kind != Kind::Valve => Some(9),
            Delay { ground: 4, .. } if kind != Kind::Pump => Some(10),
            Delay { ground: 5, .. } if kind != Kind::Valve => Some(11),
            Delay { ground: 1, signer: 0, .. } => Some(12),
            Delay { ground: 1.., expected: None, .. } => Some(13),
            _ => None,
        };
        if denied.is_some() { return denied; }
    }
    if let Election { mode: 1.., notified, .. } = *body {
        if fact.day < notified + 90 { return Some(14); }
    }
    let all = Known { overlay: whole, ..*known };
    let unit = match *body {
        Component { unit, kind: Kind::Valve, class: Class { designation: Designation::Difficult, .. }, .. } => Some(unit),
        ClassFact { component, class: Class { designation: Designation::Difficult, .. } } => {
            all.component(component).filter(|item| item.kind == Kind::Valve).map(|item| item.unit)
        }
        _ => None,
    };
    if let Some(unit) = unit {
        if !passed.contains(&(unit, fact.day)) {
            if all.unit(unit).is_some_and(|entry| !entry.older) && all.is_reached(unit, fact.day) { return Some(15); }
            passed.insert((unit, fact.day));
        }
    }
    if is_entry(body) && known.batch.handheld != 0 { return Some(16); }
    if let Component { unit, .. } | Election { unit, .. } | Shutdown { unit, .. } = *body {
        if known.unit(unit).is_none() { return Some(17); }
    }
    match *body {
        Unit { unit, .. } if known.unit(unit).is_some() => return Some(18),
        Component { component, .. } if known.component(component).is_some() => return Some(18),
        _ => {}
    }
    if fact.day > 46_751 { return Some(19); }
    if let Election { unit, .. } = *body {
        if known.unit(unit).is_some_and(|entry| !begins_quarter(entry.startup, fact.day)) { return Some(20); }
    }
    match (body, item) {
        (Component { kind, class, .. }, _) if !suits(*kind, class) => Some(21),
        (ClassFact { class, .. }, Some((kind, _))) if !suits(kind, class) => Some(21),
        _ => None,
    }
}

fn verdict(register: &Register, held: u64, batch: &Batch) -> Verdict {
    let (mut overlay, mut whole, mut passed) = (Overlay::default(), Overlay::default(), HashSet::new());
    for (index, fact) in batch.facts.iter().enumerate() {
        whole.add(index, fact);
    }
    for (index, fact) in batch.facts.iter().enumerate() {
        let known = Known { register, batch, overlay: &overlay };
        if let Some(rule) = least_rule(fact, &known, &whole, &mut passed) {
            return Verdict::Denied(index as u16 + 1, rule);
        }
        overlay.add(index, fact);
    }
    let count = held + batch.facts.len() as u64;
    if count > 8_000_000 { Verdict::Full(count) } else { Verdict::Pass }
}

impl Register {
    fn slot(&mut self, component: u16) -> &mut Slot {
        let at = usize::from(component);
        if self.slots.len() <= at { self.slots.resize_with(at + 1, Slot::default); }
        &mut self.slots[at]
    }

    fn insert(&mut self, key: Key, fact: &Fact) {
        match fact.body {
            Unit { unit, older, .. } => { self.units.insert(unit, UnitEntry { startup: fact.day, older }); }
            Component { component, unit, kind, class, .. } => {
                self.slot(component).entered = Some(Entered { unit, kind, begin: fact.day, class });
                let members = self.members.entry(unit).or_default();
                members.insert(members.partition_point(|other| *other < component), component);
            }
            ClassFact { component, class } => {
                let classes = &mut self.slot(component).classes;
                classes.insert(classes.partition_point(|entry| entry.0 < key), (key, class));
            }
            Retire { component } => {
                let retired = &mut self.slot(component).retired;
                *retired = Some(retired.map_or(fact.day, |first| first.min(fact.day)));
            }
            _ => {}
        }
    }
}

const CRUDE: Body = Unit { unit: 1, older: false, name: *b"CRUDE       " };

fn valve(component: u16, difficult: bool) -> Fact {
    let designation = if difficult { Designation::Difficult } else { Designation::Plain };
    let class = Class { service: Service::Gas, designation, plan: 0, month: 1 };
    Fact { day: 18_276, minute: 0, body: Component { component, unit: 1, kind: Kind::Valve, monomer: false, replaces: false, class } }
}

fn reading(place: u32) -> Fact {
    let instrument = (place / 512 % 200 + 1) as u16;
    let body = if place % 512 == 0 {
        Calibration { instrument, gas: 500 }
    } else {
        Reading { component: (place % 20_000 + 1) as u16, instrument, operator: 1, purpose: 1, ppm: place % 1_000, background: 2 }
    };
    Fact { day: (19_000 + place / 1_024 % 10_000) as u16, minute: (place % 1_440) as u16, body }
}

fn main() {
    let words: Vec<String> = std::env::args().skip(1).collect();
    let [work, sort, count] = &words[..] else { panic!("three words") };
    let count: u32 = count.parse().expect("a number");
    let mut register = Register::default();
    register.insert(Key { day: 18_276, minute: 0, handheld: 0, number: 0, index: 0 }, &Fact { day: 18_276, minute: 0, body: CRUDE });
    if sort == "readings" {
        for component in 1..=20_000 {
            register.insert(Key { day: 18_276, minute: 0, handheld: 0, number: 1, index: 0 }, &valve(component, false));
        }
    }
    let (mut passes, mut sum) = (0u64, 0u64);
    let mut place = 0;
    while place < count {
        let end = count.min(place + 512);
        let handheld = if sort == "readings" { 1 + (place / 512 % 200) as u16 } else { 0 };
        let facts = (place..end).map(|at| if sort == "readings" { reading(at) } else { valve((at + 1) as u16, (at + 1) % 35 == 0) }).collect();
        let batch = Batch { handheld, number: place / 512 + 2, facts };
        sum = batch.facts.iter().fold(sum, |sum, fact| sum.wrapping_add(u64::from(fact.minute) ^ u64::from(fact.day)));
        if work == "judge" && verdict(&register, 1_000_000, &batch) == Verdict::Pass { passes += 1; }
        if work != "none" && sort != "readings" {
            for index in 0..batch.facts.len() { register.insert(key_of(&batch, index), &batch.facts[index]); }
        }
        place = end;
    }
    println!("{work} {sort}: {count} facts, {passes} batches pass, {sum}");
}
