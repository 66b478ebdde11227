// A plain Rust office over the file of a journal: the yardstick of office.py.
// usage: office JOURNAL check | show percent UNIT QUARTER DAY | show due UNIT DAY | dock | drain    with the same words as ldar, up to 16 batches at once
// It judges each batch by the rules of denials.rs, and shows views by the functions of law.rs. Each fact is kept once; the facts
// of each component are listed at the first view. Its views ignore delays and elections.
#![allow(dead_code)]

mod law {
    include!("rule.rs");

    pub mod rules {
        include!("denials.rs");

        pub mod office {
            use super::super as law;
            use super::{Batch, Body, Class, Designation, Fact, Kind, Register, Service, Verdict, is_entry, key_of, verdict};
            use std::collections::BTreeMap;
            use std::fmt::Write;
            use std::fs::File;
            use std::io::{Read, Write as _};
            use std::os::unix::fs::FileExt;

            const HEADER: &[u8; 16] = b"LDARJNL1\0\0\0\0\0\0\0\0";
            const PIECE: usize = 1 << 20;

            include!("office_bytes.rs");

            // ---- the office

            struct Kept { handheld: u16, number: u32, first: u32 }

            /// The places of the facts of each component and of the instruments, and the batch of each fact.
            struct Lists { batch_of: Vec<u32>, starts: Vec<u32>, places: Vec<u32>, instruments: BTreeMap<u16, law::Instrument> }

            struct Office {
                file: File,
                place: u64,
                register: Register,
                facts: Vec<Fact>,
                kept: Vec<Kept>,
                positions: BTreeMap<(u16, u32), u32>,
                lists: Option<Lists>,
            }

            fn named(body: &Body) -> Option<u16> { super::asked_for(body).or(super::entry_named(body)) }

            impl Office {
                fn keep(&mut self, batch: &Batch) {
                    self.kept.push(Kept { handheld: batch.handheld, number: batch.number, first: self.facts.len() as u32 });
                    self.positions.insert((batch.handheld, batch.number), self.kept.len() as u32);
                    for (index, fact) in batch.facts.iter().enumerate() {
                        if is_entry(&fact.body) { self.register.insert(key_of(batch, index), fact); }
                        self.facts.push(*fact);
                    }
                }

                /// Opens a journal, in pieces of 1 MiB.
                fn open(file: File) -> Option<Office> {
                    file.sync_all().ok()?;
                    let mut office = Office {
                        file,
                        place: 16,
                        register: Register::default(),
                        facts: Vec::new(),
                        kept: Vec::new(),
                        positions: BTreeMap::new(),
                        lists: None,
                    };
                    let (mut window, mut start, mut at) = (Vec::with_capacity(PIECE), 0, 0u64);
                    let mut wants = |office: &Office, window: &mut Vec<u8>, start: &mut usize, wanted: usize| {
                        while window.len() - *start < wanted {
                            if window.len() == PIECE {
                                window.drain(..*start);
                                *start = 0;
                            }
                            let end = window.len();
                            window.resize(PIECE, 0);
                            let more = office.file.read_at(&mut window[end..], at).unwrap_or(0);
                            window.truncate(end + more);
                            at += more as u64;
                            if more == 0 { return false; }
                        }
                        true
                    };
                    if !wants(&office, &mut window, &mut start, 16) || window[..16] != HEADER[..] { return None; }
                    start = 16;
                    let mut spare = Vec::new();
                    loop {
                        if !wants(&office, &mut window, &mut start, 1) { return None; }
                        if window[start] != 1 { return Some(office); }
                        if !wants(&office, &mut window, &mut start, 5) { return None; }
                        let length = u32::from_be_bytes(window[start + 1..start + 5].try_into().unwrap()) as usize;
                        if length == 0 || length > 188_560 || !wants(&office, &mut window, &mut start, 5 + length) { return None; }
                        let mut payload = Bytes { rest: &window[start + 5..start + 5 + length] };
                        while !payload.rest.is_empty() {
                            let batch = payload.batch(std::mem::take(&mut spare))?;
                            let is_known = office.positions.contains_key(&(batch.handheld, batch.number));
                            if is_known || verdict(&office.register, office.facts.len() as u64, &batch) != Verdict::Pass { return None; }
                            office.keep(&batch);
                            spare = batch.facts;
                        }
                        start += 5 + length;
                        office.place += 5 + length as u64;
                    }
                }

                fn same(&self, position: u32, batch: &Batch) -> bool {
                    let at = position as usize - 1;
                    let end = self.kept.get(at + 1).map_or(self.facts.len(), |next| next.first as usize);
                    let mut bytes = self.facts[self.kept[at].first as usize..end].iter().zip(&batch.facts);
                    end - self.kept[at].first as usize == batch.facts.len() && bytes.all(|(a, b)| same_fact(a, b))
                }

                /// Keeps batches at once, in one frame. The bytes of each come after it.
                fn dock(&mut self, group: Vec<(Batch, &[u8])>) -> u32 {
                    let (mut receipts, mut facts, mut frame) = (0, self.facts.len() as u64, vec![0; 4]);
                    let mut new: Vec<Batch> = Vec::new();
                    for (batch, spelling) in group {
                        if let Some(position) = self.positions.get(&(batch.handheld, batch.number)) {
                            receipts += u32::from(self.same(*position, &batch));
                        } else if new.iter().all(|other| other.handheld != batch.handheld || other.number != batch.number)
                            && verdict(&self.register, facts, &batch) == Verdict::Pass
                        {
                            facts += batch.facts.len() as u64;
                            frame.extend_from_slice(spelling);
                            new.push(batch);
                        }
                    }
                    if new.is_empty() { return receipts; }
                    let length = (frame.len() - 4) as u32;
                    frame[..4].copy_from_slice(&length.to_be_bytes());
                    frame.push(0);
                    self.file.write_all_at(&frame, self.place + 1).expect("a write");
                    self.file.sync_all().expect("a sync");
                    self.file.write_all_at(&[1], self.place).expect("a gate");
                    self.file.sync_all().expect("a sync");
                    self.place += 5 + u64::from(length);
                    for batch in &new { self.keep(batch); }
                    self.lists = None;
                    receipts + new.len() as u32
                }

                // ---- views

                fn key_at(&self, lists: &Lists, place: u32) -> law::Key {
                    let fact = &self.facts[place as usize];
                    let kept = &self.kept[lists.batch_of[place as usize] as usize];
                    law::Key { day: fact.day, minute: fact.minute, handheld: kept.handheld, number: kept.number, index: (place - kept.first) as u16 }
                }

                fn made_lists(&self) -> Lists {
                    let mut lists = Lists { batch_of: Vec::with_capacity(self.facts.len()), starts: vec![0; 60_002], places: Vec::new(), instruments: BTreeMap::new() };
                    for at in 0..self.kept.len() {
                        let end = self.kept.get(at + 1).map_or(self.facts.len(), |next| next.first as usize);
                        lists.batch_of.resize(end, at as u32);
                    }
                    for fact in &self.facts {
                        if let Some(component) = named(&fact.body) { lists.starts[usize::from(component) + 1] += 1; }
                    }
                    for at in 1..lists.starts.len() { lists.starts[at] += lists.starts[at - 1]; }
                    let mut next = lists.starts.clone();
                    lists.places = vec![0; lists.starts[60_001] as usize];
                    let mut instruments: BTreeMap<u16, Vec<(law::Key, law::Fact)>> = BTreeMap::new();
                    for (place, fact) in (0..).zip(&self.facts) {
                        if let Some(component) = named(&fact.body) {
                            let at = &mut next[usize::from(component)];
                            lists.places[*at as usize] = place;
                            *at += 1;
                        } else if let Body::Calibration { instrument, .. } | Body::Precision { instrument, .. } | Body::Drift { instrument, .. } = fact.body {
                            instruments.entry(instrument).or_default().push((self.key_at(&lists, place), law_fact(fact)));
                        }
                    }
                    for (instrument, mut facts) in instruments {
                        facts.sort_unstable_by_key(|entry| entry.0);
                        lists.instruments.insert(instrument, law::Instrument::new(&facts));
                    }
                    for component in 0..60_001 {
                        let list = lists.starts[component] as usize..lists.starts[component + 1] as usize;
                        let mut places = std::mem::take(&mut lists.places);
                        if !places[list.clone()].is_sorted_by_key(|place| self.key_at(&lists, *place)) {
                            places[list].sort_unstable_by_key(|place| self.key_at(&lists, *place));
                        }
                        lists.places = places;
                    }
                    lists
                }

                /// For each component of a unit its entry and its events up to a day, in order.
                fn each(&self, lists: &Lists, unit: u8, day: u16, mut shows: impl FnMut(&law::Equipment, &[(law::Key, law::Class)], &[law::Event])) {
                    let (mut facts, mut fitness) = (Vec::new(), Vec::new());
                    for component in self.register.members.get(&unit).map_or(&[][..], |members| members.as_slice()) {
                        let slot = &self.register.slots[usize::from(*component)];
                        let entered = slot.entered.expect("a member");
                        let retired = slot.retired.filter(|first| *first <= day);
                        let item = law::Equipment {
                            component: *component,
                            unit,
                            kind: law_kind(entered.kind),
                            monomer: false,
                            replaces: false,
                            begin: entered.begin,
                            retired,
                            class: law_class(&entered.class),
                        };
                        let classes: Vec<(law::Key, law::Class)> = slot.classes.iter().filter(|entry| entry.0.day <= day)
                            .map(|(key, class)| (law::Key { day: key.day, minute: key.minute, handheld: key.handheld, number: key.number, index: key.index }, law_class(class)))
                            .collect();
                        facts.clear();
                        fitness.clear();
                        for place in &lists.places[lists.starts[usize::from(*component)] as usize..lists.starts[usize::from(*component) + 1] as usize] {
                            let fact = law_fact(&self.facts[*place as usize]);
                            if fact.day > day { break; }
                            let key = self.key_at(lists, *place);
                            if let law::Body::Reading { instrument, .. } = fact.body {
                                let limit = item.limit(law::regime(item.kind, item.class_on(&classes, fact.day).service));
                                let fit = lists.instruments.get(&instrument).map_or(law::Fitness::NoCalibration, |instrument| instrument.fit(&fact, &key, limit));
                                fitness.push(fit);
                            }
                            facts.push((key, fact));
                        }
                        shows(&item, &classes, &law::events_of(&item, &classes, &facts, &fitness));
                    }
                }

                fn view(&mut self, work: &str, unit: u8, quarter: u16, day: u16) -> String {
                    let lists = self.lists.take().unwrap_or_else(|| self.made_lists());
                    let startup = self.register.units[&unit].startup;
                    let mut text = String::new();
                    if work == "percent" {
                        let (mut leaking, mut monitored) = (0u64, 0u64);
                        self.each(&lists, unit, day, |item, classes, events| {
                            if item.kind != law::Kind::Valve { return; }
                            let marks = law::marks_to(item, classes, startup, events, &[], quarter, day);
                            let mark = marks[usize::from(quarter) - 1];
                            leaking += u64::from(mark.leaking);
                            monitored += u64::from(mark.monitored);
                        });
                        let good = if monitored > 0 && 50 * leaking <= monitored { "good" } else { "not good" };
                        writeln!(text, "percent {unit} {quarter} leaking {leaking} monitored {monitored} {good} not skipped").unwrap();
                    } else {
                        let mut lines = 0;
                        writeln!(text, "due {unit} {}", day_text(day)).unwrap();
                        self.each(&lists, unit, day, |item, classes, events| {
                            let mut duties = law::duties_of(item, classes, startup, events, &[], day);
                            duties.sort_by_key(|duty| (duty.cause, duty.due));
                            for duty in &duties {
                                let cause = ["first", "monthly", "quarterly", "yearly", "plan", "weekly", "drip", "release", "evidence"][usize::from(duty.cause) - 1];
                                let state = match duty.met {
                                    Some(key) => format!("done {}", day_text(key.day)),
                                    None => String::from(if duty.due >= day { "open" } else { "missed" }),
                                };
                                writeln!(text, "{} {cause} {} {state}", duty.component, day_text(duty.due)).unwrap();
                                lines += 1;
                            }
                        });
                        writeln!(text, "end {lines}").unwrap();
                    }
                    self.lists = Some(lists);
                    text
                }
            }

            fn day_text(day: u16) -> String {
                let (month, place) = law::month_and_place(day);
                format!("{:04}-{:02}-{:02}", month / 12, month % 12 + 1, place + 1)
            }

            fn same_fact(a: &Fact, b: &Fact) -> bool { a.day == b.day && a.minute == b.minute && same_body(&a.body, &b.body) }

            fn same_body(a: &Body, b: &Body) -> bool {
                match (*a, *b) {
                    (Body::Calibration { instrument, gas }, Body::Calibration { instrument: other, gas: its }) => instrument == other && gas == its,
                    _ => panic!("only calibrations are docked"),
                }
            }

            /// Keeps the batches of standard input. Those in hand together share a frame of up to 16 batches.
            fn dock(office: &mut Office) {
                let (mut input, mut output) = (std::io::stdin().lock(), std::io::stdout().lock());
                let (mut window, mut at, mut piece) = (Vec::new(), 0, vec![0; 65_536]);
                loop {
                    let (mut group, from) = (Vec::new(), at);
                    while group.len() < 16 {
                        let mut bytes = Bytes { rest: &window[at..] };
                        let Some(batch) = bytes.batch(Vec::new()) else { break };
                        let used = window.len() - at - bytes.rest.len();
                        group.push((batch, &window[at..at + used]));
                        at += used;
                    }
                    if from == at {
                        let count = input.read(&mut piece).expect("batches");
                        if count == 0 { return; }
                        window.drain(..at);
                        at = 0;
                        window.extend_from_slice(&piece[..count]);
                        continue;
                    }
                    let identities: Vec<(u16, u32)> = group.iter().map(|(batch, _): &(Batch, &[u8])| (batch.handheld, batch.number)).collect();
                    office.dock(group);
                    let mut lines = String::new();
                    for identity in identities {
                        writeln!(lines, "receipt {} {} {}", identity.0, identity.1, office.positions[&identity]).expect("a line");
                    }
                    output.write_all(lines.as_bytes()).expect("lines");
                    output.flush().expect("lines");
                }
            }

            include!("requests.rs");

            /// Answers the requests of standard input. Those in hand together share a frame of up to 16 batches.
            fn drain(office: &mut Office) {
                let (mut input, mut output) = (std::io::stdin().lock(), std::io::stdout().lock());
                let (mut window, mut at, mut piece) = (Vec::new(), 0, vec![0; 65_536]);
                loop {
                    let (mut group, mut view) = (Vec::new(), None);
                    while group.len() < 16 {
                        match request_at(&window[at..]) {
                            Some(Wanted { asked: Asked::Sync(batch), length, .. }) => { group.push(batch); at += length; }
                            Some(Wanted { asked: Asked::Percent { unit, quarter, day }, length, .. }) => { view = Some((unit, quarter, day)); at += length; break; }
                            None => break,
                        }
                    }
                    let mut said = Vec::new();
                    if !group.is_empty() {
                        let spellings: Vec<Vec<u8>> = group.iter().map(|batch| { let mut out = Vec::new(); put_bytes(&mut out, batch); out }).collect();
                        let identities: Vec<(u16, u32)> = group.iter().map(|batch| (batch.handheld, batch.number)).collect();
                        office.dock(group.into_iter().zip(spellings.iter().map(Vec::as_slice)).collect());
                        for identity in identities {
                            let position = office.positions[&identity];
                            answer(&mut said, &format!("receipt {} {} {position}\n", identity.0, identity.1));
                        }
                    }
                    if let Some((unit, quarter, day)) = view {
                        let text = office.view("percent", unit, quarter, day);
                        answer(&mut said, &text);
                    }
                    if said.is_empty() {
                        let count = input.read(&mut piece).expect("requests");
                        if count == 0 { return; }
                        window.drain(..at);
                        at = 0;
                        window.extend_from_slice(&piece[..count]);
                    } else {
                        output.write_all(&said).expect("an answer");
                        output.flush().expect("an answer");
                    }
                }
            }

            pub fn main() {
                let words: Vec<String> = std::env::args().skip(1).collect();
                let words: Vec<&str> = words.iter().map(String::as_str).collect();
                let path = words[0];
                let file = File::options().read(true).write(true).open(path).expect("a file");
                let mut office = Office::open(file).expect("a journal");
                match words[1..] {
                    ["show", "percent", unit, quarter, day] => {
                        print!("{}", office.view("percent", unit.parse().expect("a unit"), quarter.parse().expect("a quarter"), day_of(day).expect("a day")));
                    }
                    ["show", "due", unit, day] => print!("{}", office.view("due", unit.parse().expect("a unit"), 0, day_of(day).expect("a day"))),
                    ["drain"] => drain(&mut office),
                    ["dock"] => dock(&mut office),
                    _ => println!("journal {} batches {} facts", office.kept.len(), office.facts.len()),
                }
            }
        }
    }
}

fn main() { law::rules::office::main() }
