// A plain Rust office that keeps what its views made, from view to view: included by views.rs, drill.rs and serve.rs, beside rule.rs.
// Of each component it keeps the judged events and the spans of leaks, of each unit its shutdowns, elections and the tallies of four days.
// A batch makes stale what it touches; a view makes anew what is stale, and takes the rest as it is.

// ---- the office

#[derive(Clone, Copy)]
struct UnitEntry { unit: u8, name: [u8; 12], startup: u16 }
#[derive(Clone, Copy)]
struct ElectionEntry { key: Key, mode: u8 }
#[derive(Clone, Copy)]
struct Tag {
    component: u16, detected: u16, attempted: Option<u16>, repair_due: Until, closed: Option<u16>, delay: Option<DelayEntry>, removable: bool,
}

/// Places of facts. The first of them are in key order, up to the greatest key; the others are put in order when the list is read.
struct List { places: Vec<u32>, ordered: usize, greatest: Key }

impl List {
    const EMPTY: List = List { places: Vec::new(), ordered: 0, greatest: Key { day: 0, minute: 0, handheld: 0, number: 0, index: 0 } };

    fn push(&mut self, place: u32, key: &Key) {
        if self.ordered == self.places.len() && self.greatest <= *key {
            self.ordered += 1;
            self.greatest = *key;
        }
        self.places.push(place);
    }

    fn in_order(&mut self, facts: &[(Key, Fact)]) -> &[u32] {
        if self.ordered + 8 < self.places.len() {
            self.places.sort_by_key(|place| facts[*place as usize].0);
        } else {
            for at in self.ordered..self.places.len() {
                let key = facts[self.places[at] as usize].0;
                let to = self.places[..at].partition_point(|place| facts[*place as usize].0 <= key);
                self.places[to..=at].rotate_right(1);
            }
        }
        if self.ordered < self.places.len() { self.greatest = facts[self.places[self.places.len() - 1] as usize].0; }
        self.ordered = self.places.len();
        &self.places
    }
}

/// What is kept of a component: what all facts say of it.
struct Summary { item: Equipment, classes: Vec<(Key, Class)>, events: Vec<Event>, spans: Vec<Span> }

struct DayTallies { day: u16, tallies: Vec<Tally> }

/// What is kept of a unit, and the components whose summaries are stale.
#[derive(Default)]
struct UnitSummary { is_fresh: bool, stops: Vec<Stop>, elections: Vec<ElectionEntry>, days: Vec<DayTallies>, stale: Vec<u16> }

/// Facts in order of arrival, and by number the places of those that name a component, an instrument or a unit.
#[derive(Default)]
struct Office {
    facts: Vec<(Key, Fact)>,
    components: Vec<List>,
    instruments: Vec<List>,
    readings: Vec<List>,
    units: Vec<List>,
    equipment: Vec<Option<Equipment>>,
    entries: Vec<Option<UnitEntry>>,
    members: Vec<Vec<u16>>,
    summaries: Vec<Option<Summary>>,
    is_stale: Vec<bool>,
    unit_summaries: Vec<UnitSummary>,
}

fn grown<T>(items: &mut Vec<T>, number: usize, empty: impl FnMut() -> T) -> &mut T {
    if items.len() <= number { items.resize_with(number + 1, empty); }
    &mut items[number]
}

fn put(lists: &mut Vec<List>, number: usize, place: u32, key: &Key) { grown(lists, number, || List::EMPTY).push(place, key); }

/// Makes a component stale, if it is not.
fn touch(units: &mut [UnitSummary], equipment: &[Option<Equipment>], is_stale: &mut [bool], component: u16) {
    let Some(Some(item)) = equipment.get(usize::from(component)) else { return };
    if !std::mem::replace(&mut is_stale[usize::from(component)], true) { units[usize::from(item.unit)].stale.push(component); }
}

impl Office {
    fn insert(&mut self, key: Key, fact: Fact) {
        let place = self.facts.len() as u32;
        match fact.body {
            Body::Component { component, unit, kind, monomer, replaces, class } => {
                let number = usize::from(component);
                *grown(&mut self.equipment, number, || None) = Some(Equipment { component, unit, kind, monomer, replaces, begin: fact.day, retired: None, class });
                grown(&mut self.summaries, number, || None);
                grown(&mut self.is_stale, number, || false);
                put(&mut self.components, number, place, &key);
                let members = grown(&mut self.members, usize::from(unit), Vec::new);
                let at = members.partition_point(|member| *member < component);
                members.insert(at, component);
                self.touch(component);
                self.unit_summaries[usize::from(unit)].is_fresh = false;
            }
            Body::Retire { component } => {
                if let Some(item) = &mut self.equipment[usize::from(component)] {
                    item.retired = Some(item.retired.map_or(fact.day, |day| day.min(fact.day)));
                }
                put(&mut self.components, usize::from(component), place, &key);
                self.touch(component);
            }
            Body::Unit { unit, name, .. } => {
                *grown(&mut self.entries, usize::from(unit), || None) = Some(UnitEntry { unit, name, startup: fact.day });
                put(&mut self.units, usize::from(unit), place, &key);
                *grown(&mut self.unit_summaries, usize::from(unit), UnitSummary::default) = UnitSummary::default();
            }
            Body::Election { unit, .. } | Body::Shutdown { unit, .. } => {
                put(&mut self.units, usize::from(unit), place, &key);
                self.unit_summaries[usize::from(unit)].is_fresh = false;
            }
            Body::Calibration { instrument, .. } | Body::Drift { instrument, .. } => {
                put(&mut self.instruments, usize::from(instrument), place, &key);
                self.touch_readings(instrument, key.day, key.day);
            }
            Body::Precision { instrument, .. } => {
                put(&mut self.instruments, usize::from(instrument), place, &key);
                self.touch_readings(instrument, key.day, plus_months(key.day, 3));
            }
            Body::Reading { component, instrument, .. } => {
                put(&mut self.readings, usize::from(instrument), place, &key);
                put(&mut self.components, usize::from(component), place, &key);
                self.touch(component);
            }
            Body::Class { component, .. } | Body::Visual { component, .. } | Body::Attempt { component, .. } | Body::Delay { component, .. }
            | Body::Release { component } | Body::Indication { component, .. } => {
                put(&mut self.components, usize::from(component), place, &key);
                self.touch(component);
            }
        }
        self.facts.push((key, fact));
    }

    fn touch(&mut self, component: u16) { touch(&mut self.unit_summaries, &self.equipment, &mut self.is_stale, component); }

    /// Makes stale the components that an instrument read between two days.
    fn touch_readings(&mut self, instrument: u16, first: u16, last: u16) {
        let Some(list) = self.readings.get_mut(usize::from(instrument)) else { return };
        let facts = &self.facts;
        let places = list.in_order(facts);
        let from = places.partition_point(|place| facts[*place as usize].0.day < first);
        for place in &places[from..] {
            let (key, fact) = &facts[*place as usize];
            if last < key.day { break; }
            if let Body::Reading { component, .. } = fact.body { touch(&mut self.unit_summaries, &self.equipment, &mut self.is_stale, component); }
        }
    }

    fn adopt(&mut self, handheld: u16, number: u32, facts: &[Fact]) {
        for (index, fact) in (0..).zip(facts) {
            self.insert(Key { day: fact.day, minute: fact.minute, handheld, number, index }, *fact);
        }
    }
}

/// The facts at the places of a list, in key order.
fn read(facts: &[(Key, Fact)], lists: &mut [List], number: usize, into: &mut Vec<(Key, Fact)>) {
    into.clear();
    let Some(list) = lists.get_mut(number) else { return };
    into.extend(list.in_order(facts).iter().map(|place| facts[*place as usize]));
}

// ---- what is kept

/// Instruments as they are prepared within a view, and buffers that are reused.
#[derive(Default)]
struct Reader { instruments: Vec<Option<Instrument>>, own: Vec<(Key, Fact)>, tests: Vec<(Key, Fact)>, fitness: Vec<Fitness> }

impl Office {
    fn instrument<'a>(&mut self, reader: &'a mut Reader, number: u16) -> &'a Instrument {
        let slot = grown(&mut reader.instruments, usize::from(number), || None);
        slot.get_or_insert_with(|| {
            read(&self.facts, &mut self.instruments, usize::from(number), &mut reader.tests);
            Instrument::new(&reader.tests)
        })
    }

    fn summary(&mut self, reader: &mut Reader, component: u16) -> Option<Summary> {
        let item = self.equipment[usize::from(component)]?;
        let (mut own, mut fitness) = (std::mem::take(&mut reader.own), std::mem::take(&mut reader.fitness));
        read(&self.facts, &mut self.components, usize::from(component), &mut own);
        let classes: Vec<(Key, Class)> = own.iter().filter_map(|(key, fact)| match fact.body {
            Body::Class { class, .. } => Some((*key, class)),
            _ => None,
        }).collect();
        fitness.clear();
        for (key, fact) in &own {
            if let Body::Reading { instrument, .. } = fact.body {
                let limit = item.limit(regime(item.kind, item.class_on(&classes, key.day).service));
                fitness.push(self.instrument(reader, instrument).fit(fact, key, limit));
            }
        }
        let mut events = events_of(&item, &classes, &own, &fitness);
        events.shrink_to_fit();
        let mut spans = spans_of(item.kind, &events);
        spans.shrink_to_fit();
        (reader.own, reader.fitness) = (own, fitness);
        Some(Summary { item, classes, events, spans })
    }

    /// Makes anew what is stale of a unit, and brings the tallies of the kept days up to date.
    fn renew(&mut self, unit: &UnitEntry) {
        let mut kept = std::mem::take(&mut self.unit_summaries[usize::from(unit.unit)]);
        let mut reader = Reader::default();
        if !kept.is_fresh {
            read(&self.facts, &mut self.units, usize::from(unit.unit), &mut reader.own);
            kept.stops = reader.own.iter().filter_map(|(key, fact)| match fact.body {
                Body::Shutdown { days, .. } => Some(Stop { first: key.day, last: plus_days(key.day, days - 1) }),
                _ => None,
            }).collect();
            kept.elections = reader.own.iter().filter_map(|(key, fact)| match fact.body {
                Body::Election { mode, .. } => Some(ElectionEntry { key: *key, mode }),
                _ => None,
            }).collect();
            kept.days.clear();
            kept.is_fresh = true;
        }
        for component in std::mem::take(&mut kept.stale) {
            let Some(new) = self.summary(&mut reader, component) else { continue };
            let old = &mut self.summaries[usize::from(component)];
            for tallies in &mut kept.days {
                let old = old.as_ref().and_then(|row| row.on(tallies.day));
                if let Some(known) = old { known.add_to(&mut tallies.tallies, unit, &kept.stops, tallies.day, u32::wrapping_sub); }
                if let Some(known) = new.on(tallies.day) { known.add_to(&mut tallies.tallies, unit, &kept.stops, tallies.day, u32::wrapping_add); }
            }
            *old = Some(new);
            self.is_stale[usize::from(component)] = false;
        }
        self.unit_summaries[usize::from(unit.unit)] = kept;
    }

    /// The tallies of the first quarters, judged on a day. The unit is renewed. Four days are kept.
    fn tallies_on(&mut self, unit: &UnitEntry, day: u16, quarters: u16) -> &[Tally] {
        let quarters = usize::from(quarters);
        let mut days = std::mem::take(&mut self.unit_summaries[usize::from(unit.unit)].days);
        let found = days.iter().position(|kept| kept.day == day && quarters <= kept.tallies.len());
        let place = found.unwrap_or_else(|| {
            days.retain(|kept| kept.day != day);
            if days.len() == 4 { days.remove(0); }
            let mut tallies = vec![Tally::default(); quarters];
            let stops = &self.unit_summaries[usize::from(unit.unit)].stops;
            for known in self.each(unit, day) { known.add_to(&mut tallies, unit, stops, day, u32::wrapping_add); }
            days.push(DayTallies { day, tallies });
            days.len() - 1
        });
        let kept = &mut self.unit_summaries[usize::from(unit.unit)].days;
        *kept = days;
        &kept[place].tallies[..quarters]
    }

    /// What is known on a day of each component of a unit, in order. The unit is renewed.
    fn each(&self, unit: &UnitEntry, day: u16) -> impl Iterator<Item = Known<'_>> {
        let members = self.members.get(usize::from(unit.unit)).map_or(&[][..], |members| members);
        members.iter().filter_map(move |component| self.summaries[usize::from(*component)].as_ref()?.on(day))
    }

    fn stops_to(&self, unit: &UnitEntry, day: u16) -> &[Stop] { stops_to(&self.unit_summaries[usize::from(unit.unit)].stops, day) }

    fn elections_to(&self, unit: &UnitEntry, day: u16) -> &[ElectionEntry] {
        let elections = &self.unit_summaries[usize::from(unit.unit)].elections;
        &elections[..elections.partition_point(|election| election.key.day <= day)]
    }
}

fn stops_to(stops: &[Stop], day: u16) -> &[Stop] { &stops[..stops.partition_point(|stop| stop.first <= day)] }

/// What is known of a component on a day.
struct Known<'a> { item: Equipment, classes: &'a [(Key, Class)], events: &'a [Event], spans: Cow<'a, [Span]> }

impl Summary {
    fn on(&self, day: u16) -> Option<Known<'_>> {
        let mut item = self.item;
        if day < item.begin { return None; }
        item.retired = item.retired.filter(|retired| *retired <= day);
        let all = self.events.last().is_none_or(|event| event.key.day <= day);
        let events = if all { &self.events[..] } else { &self.events[..self.events.partition_point(|event| event.key.day <= day)] };
        let classes = &self.classes[..self.classes.partition_point(|entered| entered.0.day <= day)];
        let spans = if all {
            Cow::Borrowed(&self.spans[..])
        } else if self.spans.first().is_none_or(|span| day < span.detected.day) {
            Cow::Borrowed(&[][..])
        } else {
            Cow::Owned(spans_of(item.kind, events))
        };
        Some(Known { item, classes, events, spans })
    }
}

impl Known<'_> {
    fn tags(&self, stops: &[Stop]) -> Vec<Tag> { tags_of(&self.item, self.events, &self.spans, stops) }

    /// Counts the marks of a valve in tallies, or takes them out.
    fn add_to(&self, tallies: &mut [Tally], unit: &UnitEntry, stops: &[Stop], day: u16, add: fn(u32, u32) -> u32) {
        if self.item.kind != Kind::Valve { return; }
        let quarters = tallies.len() as u16;
        let delayed = delayed_to(unit.startup, quarters, day, &self.tags(stops_to(stops, day)));
        let marks = marks_to(&self.item, self.classes, unit.startup, self.events, &delayed, quarters, day);
        for (tally, mark) in tallies.iter_mut().zip(&marks) {
            tally.leaking = add(tally.leaking, u32::from(mark.leaking));
            tally.monitored = add(tally.monitored, u32::from(mark.monitored));
        }
    }
}

fn tags_of(item: &Equipment, events: &[Event], spans: &[Span], stops: &[Stop]) -> Vec<Tag> {
    if spans.is_empty() { return Vec::new(); }
    let delays: Vec<DelayEntry> = events.iter().filter_map(|event| match event.what {
        Happening::Delay { ground, signer, expected } => Some(DelayEntry { key: event.key, ground, signer, expected }),
        _ => None,
    }).collect();
    let attempts: Vec<u16> = events.iter().filter(|event| matches!(event.what, Happening::Attempt { .. })).map(|event| event.key.day).collect();
    spans.iter().map(|span| {
        let from = delays.partition_point(|delay| delay.key <= span.detected);
        let to = span.closed.map_or(delays.len(), |closed| delays.partition_point(|delay| delay.key < closed));
        let own = &delays[from..to];
        let (repair_due, counted) = repair_of(span.detected.day, own, &attempts, stops);
        Tag {
            component: item.component, detected: span.detected.day, attempted: span.attempted, repair_due, closed: span.closed.map(|key| key.day),
            delay: counted.map(|place| own[place]), removable: span.removable,
        }
    }).collect()
}

impl Tag {
    fn is_delayed(&self) -> bool { self.delay.is_some_and(|delay| delay.ground > 0) }
    fn is_late(&self, day: u16) -> bool { matches!(self.repair_due, Until::Date(due) if due < self.closed.unwrap_or(day)) }
}

// ---- quarters of the unit

#[derive(Clone, Copy, Default)]
struct Tally { leaking: u32, monitored: u32 }

impl Tally {
    fn is_good(&self) -> bool { self.monitored > 0 && 50 * self.leaking <= self.monitored }
}

/// For each quarter up to one, whether a repair is delayed on the quarter's judging day.
fn delayed_to(startup: u16, quarters: u16, day: u16, tags: &[Tag]) -> Vec<bool> {
    let mut delayed = Vec::new();
    let first = first_quarter(startup);
    for tag in tags.iter().filter(|tag| tag.is_delayed()) {
        if delayed.is_empty() { delayed = vec![false; usize::from(quarters)]; }
        let from = month_of(tag.detected).saturating_sub(first) / 3;
        for (quarter, is) in (from..).zip(delayed.iter_mut().skip(from as usize)) {
            let judging = last_day(first + 3 * quarter + 2).min(day);
            if tag.closed.is_some_and(|closed| closed <= judging) { break; }
            *is |= tag.detected <= judging;
        }
    }
    delayed
}

/// Which quarters are skipped, from the first to one, by the counts of those before it.
fn skipped_to(tallies: &[Tally], elections: &[ElectionEntry], startup: u16, quarters: u16) -> Vec<bool> {
    let first = first_quarter(startup);
    let (mut run, mut streak) = (0u32, 0u32);
    (0..u32::from(quarters)).map(|quarter| {
        let begins = if first + 3 * quarter > LAST_MONTH { LAST_DAY as u16 } else { first_day(first + 3 * quarter) };
        let count = elections.partition_point(|election| election.key.day <= begins);
        let mode = if count == 0 { 0 } else { elections[count - 1].mode };
        let skips = (mode == 1 && run == 0 && streak >= 2) || (mode == 3 && run < 3 && streak >= 5);
        if skips {
            run += 1;
        } else {
            run = 0;
            streak = if tallies.get(quarter as usize).is_some_and(Tally::is_good) { streak + 1 } else { 0 };
        }
        skips
    }).collect()
}

fn quarter_at(startup: u16, day: u16) -> u16 {
    month_of(day).checked_sub(first_quarter(startup)).map_or(0, |past| (past / 3 + 1) as u16)
}

// ---- texts

fn put_day(text: &mut String, day: u16) {
    let (month, place) = month_and_place(day);
    let (year, month, day) = (month / 12, month % 12 + 1, place + 1);
    for (number, end) in [(year / 100, ""), (year % 100, "-"), (month, "-"), (day, "")] {
        text.push((b'0' + (number / 10) as u8) as char);
        text.push((b'0' + (number % 10) as u8) as char);
        text.push_str(end);
    }
}

fn put_day_or_none(text: &mut String, day: Option<u16>) {
    match day {
        Some(day) => put_day(text, day),
        None => text.push('-'),
    }
}

fn put_until(text: &mut String, until: &Until) {
    match until {
        Until::Date(day) => put_day(text, *day),
        Until::Shutdown => text.push_str("shutdown"),
        Until::WhileIsolated => text.push_str("isolated"),
        Until::NoDate => text.push_str("purge"),
    }
}

fn begun(view: &str, unit: u8, day: u16) -> String {
    let mut text = String::new();
    write!(text, "{view} {unit} ").unwrap();
    put_day(&mut text, day);
    text.push('\n');
    text
}

fn ended(mut text: String, lines: usize) -> String {
    writeln!(text, "end {lines}").unwrap();
    text
}

const CAUSES: [&str; 10] = ["", "first", "monthly", "quarterly", "yearly", "plan", "weekly", "drip", "release", "evidence"];

/// Goes over the duties of the components of a unit, in order.
fn for_each_duty(office: &mut Office, unit: &UnitEntry, day: u16, mut told: impl FnMut(Duty)) {
    office.renew(unit);
    let quarters = quarter_at(unit.startup, day);
    let skipped = if office.elections_to(unit, day).is_empty() {
        Vec::new()
    } else {
        let tallies = office.tallies_on(unit, day, quarters.saturating_sub(1)).to_vec();
        skipped_to(&tallies, office.elections_to(unit, day), unit.startup, quarters)
    };
    for known in office.each(unit, day) {
        duties_of(&known.item, known.classes, unit.startup, known.events, &skipped, day).into_iter().for_each(&mut told);
    }
}

fn due_text(office: &mut Office, unit: &UnitEntry, day: u16) -> String {
    let (mut text, mut lines) = (begun("due", unit.unit, day), 0);
    for_each_duty(office, unit, day, |duty| {
        write!(text, "{} {} ", duty.component, CAUSES[usize::from(duty.cause)]).unwrap();
        put_day(&mut text, duty.due);
        match duty.met {
            Some(key) => {
                text.push_str(" done ");
                put_day(&mut text, key.day);
            }
            None => text.push_str(if day <= duty.due { " open" } else { " missed" }),
        }
        text.push('\n');
        lines += 1;
    });
    ended(text, lines)
}

fn route_text(office: &mut Office, unit: &UnitEntry, day: u16, stops: u16) -> String {
    let mut duties = Vec::new();
    for_each_duty(office, unit, day, |duty| duties.push(duty));
    let routes = routes(&duties, stops);
    let mut text = begun("route", unit.unit, day);
    text.pop();
    writeln!(text, " {stops}").unwrap();
    for (place, route) in (1..).zip(&routes) {
        write!(text, "route {place}:").unwrap();
        for component in route { write!(text, " {component}").unwrap(); }
        text.push('\n');
    }
    ended(text, routes.len())
}

fn tags_text(office: &mut Office, unit: &UnitEntry, day: u16) -> String {
    office.renew(unit);
    let stops = office.stops_to(unit, day);
    let (mut text, mut lines) = (begun("tags", unit.unit, day), 0);
    for known in office.each(unit, day) {
        let tags = known.tags(stops);
        for tag in tags.iter().filter(|tag| tag.closed.is_none_or(|closed| u32::from(day) <= u32::from(closed) + 366)) {
            write!(text, "{} detected ", tag.component).unwrap();
            put_day(&mut text, tag.detected);
            text.push_str(" attempt ");
            put_day(&mut text, plus_days(tag.detected, 5));
            text.push(' ');
            put_day_or_none(&mut text, tag.attempted);
            text.push_str(" repair ");
            put_until(&mut text, &tag.repair_due);
            text.push(' ');
            put_day_or_none(&mut text, tag.closed);
            text.push_str(if tag.removable { " removable\n" } else { " tagged\n" });
            lines += 1;
        }
    }
    ended(text, lines)
}

fn put_delay(text: &mut String, tag: &Tag, delay: &DelayEntry) {
    const GROUNDS: [&str; 6] = ["withdrawn", "a", "b", "c", "d", "e"];
    write!(text, "{} detected ", tag.component).unwrap();
    put_day(text, tag.detected);
    write!(text, " ground {} signer {} expected ", GROUNDS[usize::from(delay.ground)], delay.signer).unwrap();
    put_day_or_none(text, delay.expected);
    text.push_str(" until ");
    put_until(text, &tag.repair_due);
}

fn delays_text(office: &mut Office, unit: &UnitEntry, day: u16) -> String {
    office.renew(unit);
    let stops = office.stops_to(unit, day);
    let (mut text, mut lines) = (begun("delays", unit.unit, day), 0);
    for known in office.each(unit, day) {
        let tags = known.tags(stops);
        for tag in tags.iter().filter(|tag| tag.closed.is_none()) {
            let Some(delay) = tag.delay.filter(|delay| delay.ground > 0) else { continue };
            put_delay(&mut text, tag, &delay);
            text.push('\n');
            lines += 1;
        }
    }
    ended(text, lines)
}

fn percent_text(office: &mut Office, unit: &UnitEntry, quarter: u16, day: u16) -> String {
    office.renew(unit);
    let tallies = office.tallies_on(unit, day, quarter);
    let tally = tallies.last().copied().unwrap_or_default();
    let tallies = if office.elections_to(unit, day).is_empty() { Vec::new() } else { office.tallies_on(unit, day, quarter).to_vec() };
    let skipped = skipped_to(&tallies, office.elections_to(unit, day), unit.startup, quarter).last() == Some(&true);
    let (good, skip) = (if tally.is_good() { "good" } else { "not good" }, if skipped { "skipped" } else { "not skipped" });
    format!("percent {} {quarter} leaking {} monitored {} {good} {skip}\n", unit.unit, tally.leaking, tally.monitored)
}

fn report_text(office: &mut Office, unit: &UnitEntry, half: u16, day: u16) -> String {
    office.renew(unit);
    let stops = office.stops_to(unit, day);
    let month = first_quarter(unit.startup) + 6 * u32::from(half) - 6;
    let (first, last) = (first_day(month), last_day(month + 5));
    let mut cells = [[0u32; 6]; 6];
    let (mut delays, mut count) = (String::new(), 0);
    for known in office.each(unit, day) {
        let tags = known.tags(stops);
        let column = match known.item.kind {
            Kind::Valve => Some(0),
            Kind::Pump => Some(2),
            Kind::Compressor => Some(4),
            Kind::Relief => None,
        };
        if let Some(column) = column {
            let (mut leaks, mut late) = (0u32, 0u32);
            let from = known.events.partition_point(|event| event.key.day < first);
            for event in known.events[from..].iter().take_while(|event| event.key.day <= last) {
                let leak = match event.what {
                    Happening::Read { leak, .. } | Happening::Look { leak, .. } | Happening::Sensor { leak, .. } => leak,
                    _ => false,
                };
                if leak { leaks |= 1 << (month_of(event.key.day) - month); }
            }
            for tag in tags.iter().filter(|tag| tag.is_late(day)) {
                let Until::Date(due) = tag.repair_due else { continue };
                if first <= due && due <= last { late |= 1 << (month_of(due) - month); }
            }
            for (place, cells) in cells.iter_mut().enumerate() {
                cells[column] += leaks >> place & 1;
                cells[column + 1] += late >> place & 1;
            }
        }
        for tag in &tags {
            let Some(delay) = tag.delay else { continue };
            if last < tag.detected || tag.closed.is_some_and(|closed| closed < first) { continue; }
            delays.push_str("delay ");
            put_delay(&mut delays, tag, &delay);
            delays.push_str(" closed ");
            put_day_or_none(&mut delays, tag.closed);
            delays.push('\n');
            count += 1;
        }
    }
    let name = String::from_utf8_lossy(&unit.name).trim_end_matches('\0').to_string();
    let mut text = format!("report {name} unit {} half {half} as of ", unit.unit);
    put_day(&mut text, day);
    text.push('\n');
    for (month, cells) in (month..).zip(&cells) {
        let [a, b, c, d, e, f] = cells;
        writeln!(text, "{}-{:02} valves {a} {b} pumps {c} {d} compressors {e} {f}", month / 12, month % 12 + 1).unwrap();
    }
    text.push_str(&delays);
    for stop in stops.iter().filter(|stop| stop.first <= last && first <= stop.last) {
        text.push_str("shutdown ");
        put_day(&mut text, stop.first);
        text.push(' ');
        put_day(&mut text, stop.last);
        text.push('\n');
        count += 1;
    }
    ended(text, 6 + count)
}

/// The numbers of the lines of the tag list, of the open tags and of the lines of the due list.
fn totals(office: &mut Office, unit: &UnitEntry, day: u16) -> (usize, usize, usize) {
    let mut duties = 0;
    for_each_duty(office, unit, day, |_| duties += 1);
    let stops = office.stops_to(unit, day);
    let (mut tags, mut open) = (0, 0);
    for known in office.each(unit, day) {
        for tag in known.tags(stops) {
            open += usize::from(tag.closed.is_none());
            tags += usize::from(tag.closed.is_none_or(|closed| u32::from(day) <= u32::from(closed) + 366));
        }
    }
    (tags, open, duties)
}
