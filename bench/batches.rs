// A plain Rust reader of batches with the same types and the same ranges: the yardstick of batches.py.
// usage: batches read FILE PASSES
use Body::*;

#[allow(dead_code)]
struct Class { service: u8, designation: u8, plan: u8, month: u8 }

#[allow(dead_code)]
enum Body {
    Unit { unit: u8, older: bool, name: [u8; 12] },
    Component { component: u16, unit: u8, kind: u8, monomer: bool, replaces: bool, class: Class },
    ClassOf { component: u16, class: Class },
    Retire { component: u16 },
    Election { unit: u8, mode: u8, notified: u16 },
    Shutdown { unit: u8, days: u16 },
    Calibration { instrument: u16, gas: u32 },
    Precision { instrument: u16, value: u32, readings: (u32, u32, u32) },
    Drift { instrument: u16, value: u32, readings: (u32, u32, u32) },
    Reading { component: u16, instrument: u16, operator: u16, purpose: u8, ppm: u32, background: u32 },
    Visual { component: u16, state: u8 },
    Attempt { component: u16, complete: bool },
    Delay { component: u16, ground: u8, signer: u16, expected: Option<u16> },
    Release { component: u16 },
    Indication { component: u16, sort: u8, present: bool },
}

struct Fact { day: u16, minute: u16, body: Body }

#[allow(dead_code)]
struct Batch { handheld: u16, number: u32, facts: Vec<Fact> }

struct Cursor<'a> { rest: &'a [u8] }

impl Cursor<'_> {
    fn take<const N: usize>(&mut self) -> Option<[u8; N]> {
        let (front, rest) = self.rest.split_first_chunk::<N>()?;
        self.rest = rest;
        Some(*front)
    }
    fn one(&mut self, least: u8, most: u8) -> Option<u8> {
        self.take::<1>().map(|b| b[0]).filter(|n| (least..=most).contains(n))
    }
    fn two(&mut self, least: u16, most: u16) -> Option<u16> {
        self.take().map(u16::from_be_bytes).filter(|n| (least..=most).contains(n))
    }
    fn four(&mut self, least: u32, most: u32) -> Option<u32> {
        self.take().map(u32::from_be_bytes).filter(|n| (least..=most).contains(n))
    }
    fn flag(&mut self) -> Option<bool> { Some(self.one(0, 1)? == 1) }
    fn day(&mut self) -> Option<u16> { self.two(13_879, 47_481) }
    fn component(&mut self) -> Option<u16> { self.two(1, 60_000) }
    fn unit(&mut self) -> Option<u8> { self.one(1, 64) }
    fn ppm(&mut self) -> Option<u32> { self.four(0, 999_999) }
    fn name(&mut self) -> Option<[u8; 12]> {
        let name = self.take::<12>()?;
        let length = name.iter().position(|b| *b == 0).unwrap_or(12);
        let (letters, zeros) = name.split_at(length);
        let fits = length > 0 && zeros.iter().all(|b| *b == 0)
            && letters.iter().all(|b| matches!(b, b'-' | b'0'..=b'9' | b'A'..=b'Z'));
        fits.then_some(name)
    }
    fn class(&mut self) -> Option<Class> {
        let (service, designation) = (self.one(1, 5)?, self.one(0, 3)?);
        let plan = if designation == 2 { self.one(1, 60)? } else { self.one(0, 0)? };
        Some(Class { service, designation, plan, month: self.one(1, 3)? })
    }
    fn readings(&mut self) -> Option<(u32, u32, u32)> { Some((self.ppm()?, self.ppm()?, self.ppm()?)) }
    fn known(&mut self) -> Option<(u16, u32)> { Some((self.two(1, 65_535)?, self.four(1, 999_999)?)) }
    fn expected(&mut self) -> Option<Option<u16>> {
        let day = self.two(0, 47_481)?;
        (day == 0 || day >= 13_879).then_some((day != 0).then_some(day))
    }
    fn body(&mut self, kind: u8) -> Option<Body> {
        Some(match kind {
            1 => Unit { unit: self.unit()?, older: self.flag()?, name: self.name()? },
            2 => Component { component: self.component()?, unit: self.unit()?, kind: self.one(1, 4)?, monomer: self.flag()?, replaces: self.flag()?, class: self.class()? },
            3 => ClassOf { component: self.component()?, class: self.class()? },
            4 => Retire { component: self.component()? },
            5 => Election { unit: self.unit()?, mode: self.one(0, 3).filter(|mode| *mode != 2)?, notified: self.day()? },
            6 => Shutdown { unit: self.unit()?, days: self.two(1, 366)? },
            7 => self.known().map(|(instrument, gas)| Calibration { instrument, gas })?,
            8 => { let (instrument, value) = self.known()?; Precision { instrument, value, readings: self.readings()? } }
            9 => { let (instrument, value) = self.known()?; Drift { instrument, value, readings: self.readings()? } }
            10 => Reading { component: self.component()?, instrument: self.two(0, 65_535)?, operator: self.two(0, 65_535)?, purpose: self.one(1, 2)?, ppm: self.ppm()?, background: self.ppm()? },
            11 => Visual { component: self.component()?, state: self.one(0, 2)? },
            12 => Attempt { component: self.component()?, complete: self.flag()? },
            13 => Delay { component: self.component()?, ground: self.one(0, 5)?, signer: self.two(0, 65_535)?, expected: self.expected()? },
            14 => Release { component: self.component()? },
            15 => Indication { component: self.component()?, sort: self.one(1, 2)?, present: self.flag()? },
            _ => return None,
        })
    }
    fn batch(&mut self) -> Option<Batch> {
        self.one(66, 66)?;
        let (handheld, number, count) = (self.two(0, 65_535)?, self.four(0, u32::MAX)?, self.two(1, 512)?);
        let mut facts = Vec::with_capacity(count.into());
        for _ in 0..count {
            let kind = self.one(1, 15)?;
            facts.push(Fact { day: self.day()?, minute: self.two(0, 1_439)?, body: self.body(kind)? });
        }
        Some(Batch { handheld, number, facts })
    }
}

fn component_of(body: &Body) -> u16 {
    match *body {
        Component { component, .. } | ClassOf { component, .. } | Retire { component } | Reading { component, .. }
        | Visual { component, .. } | Attempt { component, .. } | Delay { component, .. } | Release { component }
        | Indication { component, .. } => component,
        _ => 0,
    }
}

fn read_once(bytes: &[u8], facts: &mut u64, sum: &mut u64) {
    let mut cursor = Cursor { rest: bytes };
    while let Some(batch) = cursor.batch() {
        for fact in &batch.facts {
            let said = u64::from(fact.day) ^ u64::from(fact.minute) << 16 ^ u64::from(component_of(&fact.body)) << 32;
            *facts += 1;
            *sum = sum.wrapping_mul(3).wrapping_add(said);
        }
    }
}

fn count_once(bytes: &[u8], facts: &mut u64) {
    let mut cursor = Cursor { rest: bytes };
    while let Some(batch) = cursor.batch() {
        *facts += batch.facts.len() as u64;
    }
}

fn main() {
    let words: Vec<String> = std::env::args().skip(1).collect();
    let bytes = std::fs::read(&words[1]).expect("a file");
    let (mut facts, mut sum) = (0u64, 0u64);
    for _ in 0..words[2].parse::<u32>().expect("a number") {
        read_once(&bytes, &mut facts, &mut sum);
        count_once(&bytes, &mut facts);
    }
    println!("{}: {facts} facts of {} bytes, {sum}", words[1], bytes.len());
}
