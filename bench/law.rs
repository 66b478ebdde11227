// A plain Rust program of the rule's functions on the life of a component: the yardstick of law.py.
// usage: law CALL HISTORY COMPONENTS FACTS PASSES, or law CALL SIZE PASSES    with the same words as crates/law_bench
#![allow(dead_code)]

include!("rule.rs");

// ---- what is made

const FIRST: u16 = 18_262;
const STARTUP: u16 = 18_000;

fn day_at(place: u32, places: u32, days: u32) -> u16 {
    FIRST + (u64::from(place) * u64::from(days) / u64::from(places.max(1)) % 16_000) as u16
}

#[derive(Clone, Copy, PartialEq, Eq)]
enum History { Valve, Year, Pump, Unrepaired, Batch, Drips }

impl History {
    fn of(word: &str) -> History {
        match word {
            "year" => History::Year,
            "pump" => History::Pump,
            "unrepaired" => History::Unrepaired,
            "batch" => History::Batch,
            "drips" => History::Drips,
            _ => History::Valve,
        }
    }

    fn days(self) -> u32 { if matches!(self, History::Year | History::Drips) { 365 } else { 5_840 } }
    fn quarters(self) -> u16 { if matches!(self, History::Year | History::Drips) { 6 } else { 66 } }
    fn kind(self) -> Kind { if matches!(self, History::Pump | History::Drips) { Kind::Pump } else { Kind::Valve } }

    fn class(self, month: u32) -> Class {
        let service = if self.kind() == Kind::Pump { Service::Light } else { Service::Gas };
        Class { service, designation: Designation::Plain, plan: 0, month: (month % 3 + 1) as u8 }
    }

    fn fact(self, number: u32, place: u32, places: u32) -> Fact {
        let component = (number % 60_000 + 1) as u16;
        let reading = |routine, ppm| Body::Reading { component, instrument: 1, operator: 1, routine, ppm, background: 2 };
        let attempt = Body::Attempt { component, complete: false };
        let delay = Body::Delay { component, ground: 1, signer: 1, expected: None };
        let look = |state| Body::Visual { component, state };
        let at = number.wrapping_add(place);
        let day = day_at(place, places, self.days());
        let later = |before: u32, days| plus_days(day_at(place.saturating_sub(before), places, self.days()), days);
        let (since, attempted) = match self {
            History::Year => (place.wrapping_add(number % 8).wrapping_add(4) % 12, number % 2 == 0),
            _ => (at.wrapping_add(6) % 16, at / 16 % 2 == 0),
        };
        let (day, body) = match self {
            History::Valve | History::Year => match since {
                0 => (day, reading(true, 700)),
                1 => (later(1, 2), if attempted { attempt } else { reading(false, 100) }),
                2 => (later(2, 4), if attempted { reading(false, 100) } else { delay }),
                _ => (day, reading(true, 100)),
            },
            History::Pump => (day, match at % 24 {
                0 | 4 | 8 | 12 | 16 | 20 => reading(true, 1_000),
                5 => look(State::Drips),
                6 => reading(false, 1_000),
                13 => look(State::Designated),
                14 => attempt,
                _ => look(State::Dry),
            }),
            History::Unrepaired => (day, reading(true, 700)),
            History::Drips => (day, look(State::Drips)),
            History::Batch => (FIRST, if place < places / 3 { reading(true, 700) } else if place < places / 3 * 2 { delay } else { reading(false, 100) }),
        };
        Fact { day, minute: 600, body }
    }
}

struct Component { item: Equipment, classes: Vec<(Key, Class)>, facts: Vec<(Key, Fact)>, fitness: Vec<Fitness>, events: Vec<Event> }

fn key_of(day: u16, minute: u16, number: u32) -> Key { Key { day, minute, handheld: 1, number, index: 0 } }

fn component(history: History, number: u32, places: u32) -> Component {
    let class = history.class(number);
    let item = Equipment {
        component: (number % 60_000 + 1) as u16, unit: 1, kind: history.kind(), monomer: false, replaces: false, begin: FIRST, retired: None, class,
    };
    let classes: Vec<(Key, Class)> = (1..3).map(|place| {
        (key_of(day_at(place, 3, history.days()), 0, place), history.class(number.wrapping_add(place)))
    }).collect();
    let facts: Vec<(Key, Fact)> = (0..places).map(|place| {
        let fact = history.fact(number, place, places);
        (key_of(fact.day, fact.minute, place), fact)
    }).collect();
    let fitness: Vec<Fitness> = (0..places).map(|place| if place % 50 == 49 { Fitness::NoCalibration } else { Fitness::Fit }).collect();
    let events = events_of(&item, &classes, &facts, &fitness);
    Component { item, classes, facts, fitness, events }
}

fn instrument_facts(places: u32) -> Vec<(Key, Fact)> {
    let mut facts = Vec::new();
    for place in 0..places {
        let (day, minute) = (day_at(place, places, 5_840), minute_at(place, places));
        let mut push = |minute, number, body| facts.push((key_of(day, minute, number), Fact { day, minute, body }));
        if place % 60 == 0 { push(minute, 0, Body::Precision { instrument: 1, value: 500, readings: (500, 500, 500) }); }
        push(minute, 1, Body::Calibration { instrument: 1, gas: if place % 11 == 10 { 3_000 } else { 500 } });
        if place % 7 == 3 {
            let read = if place % 2 == 0 { 400 } else { 500 };
            push(minute + 20, 2, Body::Drift { instrument: 1, value: 500, readings: (read, read, read) });
        }
    }
    facts
}

fn minute_at(place: u32, places: u32) -> u16 { (u64::from(place) * 5_840 % u64::from(places.max(1)) * 1_400 / u64::from(places.max(1))) as u16 }

fn readings(places: u32) -> Vec<(Key, Fact)> {
    (0..places).map(|place| {
        let (day, minute) = (day_at(place, places, 5_840), minute_at(place, places) + 10);
        let body = Body::Reading { component: 1, instrument: 1, operator: 1, routine: true, ppm: place % 700, background: 2 };
        (key_of(day, minute, place), Fact { day, minute, body })
    }).collect()
}

fn facts_of_a_day(places: u32) -> Vec<(Key, Fact)> {
    (0..places).map(|place| (key_of(FIRST, 300, place), Fact { day: FIRST, minute: 300, body: Body::Calibration { instrument: 1, gas: 3_000 } })).collect()
}

fn readings_of_a_day(places: u32) -> Vec<(Key, Fact)> {
    (0..places).map(|place| {
        let body = Body::Reading { component: 1, instrument: 1, operator: 1, routine: true, ppm: place % 700, background: 2 };
        (key_of(FIRST, 600, place), Fact { day: FIRST, minute: 600, body })
    }).collect()
}

// ---- sums over the answers

fn add(sum: u64, said: u64) -> u64 { sum.wrapping_mul(3).wrapping_add(said) }

fn event_said(event: &Event) -> u64 {
    let (counts, leak) = match event.what {
        Happening::Read { counts, leak, .. } => (counts, leak),
        Happening::Look { leak, .. } | Happening::Sensor { leak, .. } => (false, leak),
        _ => (false, false),
    };
    u64::from(event.key.day) << 2 | u64::from(counts) << 1 | u64::from(leak)
}

fn key_said(key: &Option<Key>) -> u64 { key.map_or(0, |key| u64::from(key.number) + 1) }

fn span_said(span: &Span) -> u64 {
    add(add(key_said(&Some(span.detected)), key_said(&span.closed)), u64::from(span.attempted.unwrap_or(0)) << 1 | u64::from(span.removable))
}

fn mark_said(mark: &Mark) -> u64 { u64::from(mark.leaking) << 1 | u64::from(mark.monitored) }

fn duty_said(duty: &Duty) -> u64 { u64::from(duty.cause) ^ u64::from(duty.due) << 4 ^ key_said(&duty.met) << 24 }

fn fitness_said(fitness: &Fitness) -> u64 {
    match fitness {
        Fitness::Fit => 1,
        Fitness::NoCalibration => 2,
        Fitness::GasTooHigh => 3,
        Fitness::NoPrecision => 4,
        Fitness::Voided { drift } => 5 + u64::from(drift.day),
    }
}

fn until_said(until: &Until) -> u64 {
    match until {
        Until::Date(day) => u64::from(*day),
        Until::Shutdown => 1,
        Until::WhileIsolated => 2,
        Until::NoDate => 3,
    }
}

fn component_call(call: &str, history: History, components: u32, places: u32, passes: u32) -> u64 {
    let unit: Vec<Component> = (0..components).map(|number| component(history, number, places)).collect();
    let day = FIRST + history.days() as u16;
    let quarters = history.quarters();
    let skipped: Vec<bool> = (0..quarters).map(|quarter| quarter % 4 == 3).collect();
    let delayed: Vec<bool> = (0..quarters).map(|quarter| quarter % 16 == 5).collect();
    let (mut sum, mut quarter) = (0, 0);
    for _ in 0..passes {
        for Component { item, classes, facts, fitness, events } in &unit {
            sum = match call {
                "events" => events_of(item, classes, facts, fitness).iter().fold(sum, |sum, event| add(sum, event_said(event))),
                "spans" => spans_of(item.kind, events).iter().fold(sum, |sum, span| add(sum, span_said(span))),
                // A pass adds the mark of one quarter: a sum over all of them takes longer than making the marks of a component that is never counted.
                "marks" => add(sum, mark_said(&marks_to(item, classes, STARTUP, events, &delayed, quarters, day)[quarter])),
                _ => duties_of(item, classes, STARTUP, events, &skipped, day).iter().fold(sum, |sum, duty| add(sum, duty_said(duty))),
            };
        }
        quarter = if quarter + 1 < usize::from(quarters) { quarter + 1 } else { 0 };
    }
    sum
}

fn other_call(call: &str, size: u32, passes: u32) -> u64 {
    let mut sum = 0;
    match call {
        "instrument" | "fit" | "day" => {
            let (facts, readings) = if call == "day" { (facts_of_a_day(size), readings_of_a_day(size)) } else { (instrument_facts(size), readings(size)) };
            let instrument = Instrument::new(&facts);
            for _ in 0..passes {
                if call != "instrument" {
                    sum = readings.iter().fold(sum, |sum, (key, fact)| add(sum, fitness_said(&instrument.fit(fact, key, 500))));
                } else {
                    let made = Instrument::new(&facts);
                    sum = add(sum, readings.first().map_or(0, |(key, fact)| fitness_said(&made.fit(fact, key, 500))));
                }
            }
        }
        "routes" => {
            let duties: Vec<Duty> = (0..size).map(|place| Duty {
                component: (u64::from(place) * 7_919 % 60_000 + 1) as u16,
                cause: 2,
                due: FIRST + (u64::from(place) * 31 % 365) as u16,
                met: if place % 10 == 9 { Some(key_of(FIRST, 0, 1)) } else { None },
            }).collect();
            for _ in 0..passes {
                sum = routes(&duties, 50).iter().flatten().fold(sum, |sum, stop| add(sum, u64::from(*stop)));
            }
        }
        _ => {
            let delays: Vec<DelayEntry> = (0..size).map(|place| DelayEntry {
                key: key_of(day_at(place, size, 365), 0, place), ground: [1, 5, 4, 0][place as usize % 4], signer: 1, expected: None,
            }).collect();
            let attempts: Vec<u16> = (0..size).map(|place| day_at(place, size, 5_840)).collect();
            let stops: Vec<Stop> = (0..size / 10).map(|place| {
                let first = plus_days(day_at(place, size / 10, 5_840), 100);
                Stop { first, last: plus_days(first, 5) }
            }).collect();
            for pass in 0..passes {
                let (due, counted) = repair_of(FIRST + (pass % 7) as u16, &delays, &attempts, &stops);
                sum = add(add(sum, until_said(&due)), counted.map_or(0, |place| place as u64 + 1));
            }
        }
    }
    sum
}

fn main() {
    let words: Vec<String> = std::env::args().skip(1).collect();
    let number = |word: &String| word.parse::<u32>().expect("a number");
    match &words[..] {
        [call, history, components, facts, passes] => {
            let sum = component_call(call, History::of(history), number(components), number(facts), number(passes));
            println!("{call} {history}: {components} of {facts} facts, {passes} passes, {sum}");
        }
        [call, size, passes] => println!("{call}: {size}, {passes} passes, {}", other_call(call, number(size), number(passes))),
        _ => panic!("CALL HISTORY COMPONENTS FACTS PASSES, or CALL SIZE PASSES"),
    }
}
