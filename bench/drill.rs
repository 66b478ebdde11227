// A plain Rust program of the drill, which keeps what its views make: the yardstick of drill.py.
// usage: drill JOURNAL drill N SIZE    like ldar
#![allow(dead_code)]

mod law {
    use std::borrow::Cow;
    use std::fmt::Write as _;

    include!("rule.rs");
    include!("kept.rs");

    pub mod rules {
        include!("denials.rs");

        pub mod office {
            include!("kept_journal.rs");

            const STARTUP: u16 = 18_276;
            const BEGIN: u16 = 18_293;
            const FIRST_READINGS: u16 = 18_331;
            const SHOWN_DAY: u16 = 18_686;
            const SHOWN_QUARTER: u16 = 4;
            const MONTHS: u16 = 12;

            fn register_facts(size: u16) -> Vec<Fact> {
                let class = Class { service: Service::Gas, designation: Designation::Plain, plan: 0, month: 1 };
                let unit = Fact { day: STARTUP, minute: 0, body: Body::Unit { unit: 1, older: false, name: *b"DRILL\0\0\0\0\0\0\0" } };
                let valves = (1..=size).map(|component| Fact {
                    day: BEGIN,
                    minute: 0,
                    body: Body::Component { component, unit: 1, kind: Kind::Valve, monomer: false, replaces: false, class },
                });
                std::iter::once(unit).chain(valves).collect()
            }

            fn month_facts(seed: u32, size: u16, month: u16) -> Vec<Fact> {
                let day = law::plus_months(FIRST_READINGS, u32::from(month) - 1);
                let mut facts = vec![
                    Fact { day, minute: 1, body: Body::Precision { instrument: 1, value: 500, readings: (500, 500, 500) } },
                    Fact { day, minute: 2, body: Body::Calibration { instrument: 1, gas: 500 } },
                ];
                facts.extend((1..=size).map(|component| {
                    let ppm = (31 * seed + 17 * u32::from(component) + 29 * u32::from(month)) % 520;
                    Fact { day, minute: 60, body: Body::Reading { component, instrument: 1, operator: 1, purpose: 1, ppm, background: 0 } }
                }));
                facts
            }

            fn put_batches(batches: &mut Vec<Batch>, handheld: u16, facts: &[Fact]) {
                for part in facts.chunks(512) { batches.push(Batch { handheld, number: batches.len() as u32 + 1, facts: part.to_vec() }); }
            }

            /// The batches of a drill in the order in which they are sent.
            fn sent(seed: u32, size: u16) -> Vec<Batch> {
                let (mut batches, mut months) = (Vec::new(), Vec::new());
                put_batches(&mut batches, 0, &register_facts(size));
                for month in 1..=MONTHS { put_batches(&mut months, 1, &month_facts(seed, size, month)); }
                let again = Batch { handheld: 1, number: 1, facts: months[0].facts.clone() };
                months.reverse();
                batches.append(&mut months);
                batches.push(again);
                batches
            }

            pub fn main() {
                let words: Vec<String> = std::env::args().skip(1).collect();
                let [path, drill, seed, size] = &words[..] else { panic!("four words") };
                assert!(drill == "drill");
                let (seed, size) = (seed.parse().expect("a seed"), size.parse().expect("a size"));
                let mut desk = Desk::create(path);
                for batch in sent(seed, size) {
                    desk.dock(&[batch]);
                    std::hint::black_box(desk.percent(1, SHOWN_QUARTER, SHOWN_DAY));
                }
                let unit = desk.views.entries[1].expect("a unit");
                let (tags, open, duties) = law::totals(&mut desk.views, &unit, SHOWN_DAY);
                let percent = desk.percent(1, SHOWN_QUARTER, SHOWN_DAY);
                print!("drill {seed} {size}\nbatches {} facts {}\ntags {tags} open {open}\ndue {duties}\n{percent}", desk.kept.len(), desk.count());
            }
        }
    }
}

fn main() { law::rules::office::main() }
