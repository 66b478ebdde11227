// A plain Rust office that shows views from its facts, and keeps what they need from view to view: the yardstick of views.py.
// usage: views FACTS    like crates/views_bench, with the same lines as input
#![allow(dead_code)]
use std::borrow::Cow;
use std::fmt::Write as _;
use std::io::{BufRead, Write as _};

include!("rule.rs");
include!("kept.rs");

fn view_text(office: &mut Office, view: &str, day: u16) -> String {
    let Some(Some(unit)) = office.entries.get(if view == "other" { 2 } else { 1 }).copied() else { return String::new() };
    let unit = &unit;
    let quarter = quarter_at(unit.startup, day);
    match view {
        "due" | "other" => due_text(office, unit, day),
        "tags" => tags_text(office, unit, day),
        "delays" => delays_text(office, unit, day),
        "percent" => percent_text(office, unit, quarter, day),
        "route" => route_text(office, unit, day, 50),
        _ => report_text(office, unit, quarter.div_ceil(2), day),
    }
}

// ---- what is made

const HANDHELDS: u32 = 40;
const READ: u32 = 500;
const VALVES: u32 = 20_000;
const ENTRIES: u32 = 20_006;
const LATE: u16 = 41;
const STARTUP: u16 = 18_276;
const FIRST: u16 = 18_302;
const ELECTION: u16 = 19_174;
const NOTIFIED: u16 = 19_083;

fn entry(place: u32) -> Fact {
    let (day, body) = match place {
        0 | 20_004 => (STARTUP, Body::Unit { unit: if place == 0 { 1 } else { 2 }, older: false, name: *b"BENCH\0\0\0\0\0\0\0" }),
        1..=VALVES | 20_005 => {
            let (number, unit) = if place <= VALVES { (place, 1) } else { (VALVES + 1, 2) };
            let class = Class { service: Service::Gas, designation: Designation::Plain, plan: 0, month: (number % 3 + 1) as u8 };
            (STARTUP, Body::Component { component: number as u16, unit, kind: Kind::Valve, monomer: false, replaces: false, class })
        }
        20_001 => (ELECTION, Body::Election { unit: 1, mode: 1, notified: NOTIFIED }),
        _ => (plus_days(ELECTION, (place % 2 * 400) as u16), Body::Shutdown { unit: 1, days: 10 }),
    };
    Fact { day, minute: 0, body }
}

fn is_leak(place: u32, month: u32) -> bool { place.wrapping_add(month.wrapping_mul(7)) % 50 == 0 }

fn ppm(place: u32, month: u32) -> u32 {
    if is_leak(place, month) { 700 } else { place.wrapping_mul(31).wrapping_add(month.wrapping_mul(17)) % 400 }
}

fn monthly_facts(month: u32, handheld: u32) -> Vec<Fact> {
    let instrument = (handheld + 1) as u16;
    let day = plus_days(plus_months(FIRST, month), (handheld % 10) as u16);
    let places = handheld * READ..handheld * READ + READ;
    let mut facts = vec![
        Fact { day, minute: 60, body: Body::Precision { instrument, value: 500, readings: (500, 500, 500) } },
        Fact { day, minute: 61, body: Body::Calibration { instrument, gas: 500 } },
    ];
    for place in places.clone() {
        let body = Body::Reading { component: (place + 1) as u16, instrument, operator: 1, routine: true, ppm: ppm(place, month), background: 2 };
        facts.push(Fact { day, minute: (120 + place % 600) as u16, body });
    }
    for place in places.filter(|place| is_leak(*place, month)) {
        let component = (place + 1) as u16;
        let body = if place / 50 % 5 == 4 {
            Body::Delay { component, ground: 1, signer: 9, expected: Some(plus_days(day, 90)) }
        } else {
            Body::Attempt { component, complete: false }
        };
        facts.push(Fact { day, minute: 1_000, body });
    }
    facts
}

fn late_facts(number: u32, readings: u32) -> Vec<Fact> {
    (0..readings.min(512)).map(|index| {
        let place = number.wrapping_mul(512).wrapping_add(index) % VALVES;
        let body = Body::Reading { component: (place + 1) as u16, instrument: 1, operator: 1, routine: true, ppm: 0, background: 2 };
        Fact { day: FIRST, minute: (120 + place % 600) as u16, body }
    }).collect()
}

/// The day of the views, and days of earlier quarters.
fn day_in_turn(months: u32, turn: u32) -> u16 { plus_days(plus_months(FIRST, months.saturating_sub(3 * turn).saturating_sub(1)), 15) }

/// A summary of what a view shows: the length of its text and a sum over its bytes.
fn said(office: &mut Office, view: &str, day: u16) -> String {
    if quarter_at(STARTUP, day) == 0 && view == "percent" { return String::from("percent: no such quarter"); }
    if quarter_at(STARTUP, day) == 0 && view == "report" { return String::from("report: no such half"); }
    let text = view_text(office, view, day);
    let sum = text.bytes().fold(0u64, |sum, byte| sum.wrapping_mul(31).wrapping_add(u64::from(byte)));
    format!("{view}: {} bytes, {sum}", text.len())
}

fn main() {
    let facts: u32 = std::env::args().nth(1).and_then(|word| word.parse().ok()).unwrap_or(0);
    let months = (facts.saturating_sub(ENTRIES) / (HANDHELDS * 512)).max(1);
    let mut office = Office::default();
    let mut adopted = 0;
    let entries: Vec<Fact> = (0..ENTRIES).map(entry).collect();
    for (number, facts) in (0..).zip(entries.chunks(512)) {
        office.adopt(0, number, facts);
        adopted += 1;
    }
    for month in 0..months {
        for handheld in 0..HANDHELDS {
            office.adopt((handheld + 1) as u16, month, &monthly_facts(month, handheld));
            adopted += 1;
        }
    }
    let mut out = std::io::stdout();
    writeln!(out, "adopted {adopted} batches").unwrap();
    let mut late = 0u32;
    let mut adopt_late = |office: &mut Office, readings: u32| {
        late += 1;
        office.adopt(LATE, late, &late_facts(late, readings));
    };
    for line in std::io::stdin().lock().lines() {
        let line = line.unwrap();
        let words: Vec<&str> = line.split(' ').collect();
        let told = match words[..] {
            ["late", readings] => {
                adopt_late(&mut office, readings.parse().unwrap_or(1));
                String::from("late: adopted 1")
            }
            ["rounds", rounds, days, view] => {
                let mut told = String::new();
                for round in 0..rounds.parse().unwrap_or(0) {
                    adopt_late(&mut office, 1);
                    told = said(&mut office, view, day_in_turn(months, round % days.parse::<u32>().unwrap_or(1)));
                }
                told
            }
            _ => said(&mut office, &line, day_in_turn(months, 0)),
        };
        writeln!(out, "{told}").unwrap();
        out.flush().unwrap();
    }
}
