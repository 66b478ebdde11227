// A plain Rust store of facts by component and instrument in key order: the yardstick of store.py.
// usage: store [listed|late] READS ORDER SORT FACTS    with the same words as crates/facts_bench
#[derive(Clone, Copy, PartialEq, Eq, PartialOrd, Ord)]
struct Key { day: u16, minute: u16, handheld: u16, number: u32, index: u16 }

#[derive(Clone, Copy)]
#[allow(dead_code)]
enum Body {
    Attempt { component: u16, complete: bool },
    Reading { component: u16, instrument: u16, operator: u16, purpose: u8, ppm: u32, background: u32 },
    // As large as the largest kind.
    Precision { instrument: u16, value: u32, readings: (u32, u32, u32) },
}

#[derive(Clone, Copy)]
struct Fact { day: u16, minute: u16, body: Body }

#[derive(Default)]
struct Store { arrived: Vec<(Key, Fact)>, components: Vec<Vec<u32>>, readings: Vec<Vec<u32>>, listed: usize }

fn put(lists: &mut Vec<Vec<u32>>, arrived: &[(Key, Fact)], number: u16, key: &Key) {
    if lists.len() <= number.into() {
        lists.resize_with(usize::from(number) + 1, Vec::new);
    }
    let list = &mut lists[usize::from(number)];
    let at = list.partition_point(|place| arrived[*place as usize].0 <= *key);
    list.insert(at, arrived.len() as u32);
}

impl Store {
    fn insert(&mut self, key: Key, fact: Fact) {
        put(&mut self.components, &self.arrived, component_of(&fact), &key);
        if let Body::Reading { instrument, .. } = fact.body {
            put(&mut self.readings, &self.arrived, instrument, &key);
        }
        self.arrived.push((key, fact));
    }

    /// Lists the new facts, each list sorted once: in place at first, and then by runs.
    fn list(&mut self) {
        for (at, (_, fact)) in self.arrived.iter().enumerate().skip(self.listed) {
            push(&mut self.components, component_of(fact), at as u32);
            if let Body::Reading { instrument, .. } = fact.body {
                push(&mut self.readings, instrument, at as u32);
            }
        }
        for list in self.components.iter_mut().chain(&mut self.readings) {
            if self.listed == 0 {
                list.sort_unstable_by_key(|place: &u32| self.arrived[*place as usize].0);
            } else {
                list.sort_by_key(|place: &u32| self.arrived[*place as usize].0);
            }
        }
        self.listed = self.arrived.len();
    }
}

fn push(lists: &mut Vec<Vec<u32>>, number: u16, at: u32) {
    if lists.len() <= number.into() {
        lists.resize_with(usize::from(number) + 1, Vec::new);
    }
    lists[usize::from(number)].push(at);
}

fn component_of(fact: &Fact) -> u16 {
    match fact.body {
        Body::Attempt { component, .. } | Body::Reading { component, .. } => component,
        Body::Precision { .. } => 0,
    }
}

fn fact_at(place: u32, sort: &str) -> Fact {
    let component = (place % 20_000 + 1) as u16;
    let body = if sort == "readings" {
        Body::Reading { component, instrument: (place % 200 + 1) as u16, operator: 1, purpose: 1, ppm: place % 1_000, background: 2 }
    } else {
        Body::Attempt { component, complete: false }
    };
    Fact { day: (13_879 + place / 1_440 % 30_000) as u16, minute: (place % 1_440) as u16, body }
}

fn mixed(place: u32) -> u32 {
    let once = (place ^ (place >> 16)).wrapping_mul(0x7feb_352d);
    let twice = (once ^ (once >> 15)).wrapping_mul(0x846c_a68b);
    twice ^ (twice >> 16)
}

fn main() {
    let mut words: Vec<String> = std::env::args().skip(1).collect();
    let late = words[0] == "late";
    let at_once = late || words[0] == "listed";
    if at_once {
        words.remove(0);
    }
    let [reads, order, sort, count] = &words[..] else { panic!("four words") };
    let mut places: Vec<u32> = (0..count.parse().expect("a number")).collect();
    match order.as_str() {
        "reverse" => places.reverse(),
        "shuffled" => places.sort_by_key(|place| mixed(*place)),
        _ => {}
    }
    let (mut facts, mut sum) = (0u64, 0u64);
    let mut add = |fact: &Fact| {
        facts += 1;
        let said = u64::from(fact.day) ^ u64::from(fact.minute) << 16 ^ u64::from(component_of(fact)) << 32;
        sum = sum.wrapping_mul(3).wrapping_add(said);
    };
    let times = reads.parse::<u32>();
    let mut store = Store::default();
    for (number, place) in places.iter().enumerate() {
        let fact = fact_at(*place, sort);
        if times.is_err() {
            add(&fact);
        } else {
            let key = Key { day: fact.day, minute: fact.minute, handheld: 1, number: number as u32, index: 0 };
            if at_once {
                if late && number == places.len() / 2 {
                    store.list();
                }
                store.arrived.push((key, fact));
            } else {
                store.insert(key, fact);
            }
        }
    }
    if at_once {
        store.list();
    }
    for _ in 0..times.unwrap_or(0) {
        for place in store.components.iter().flatten() {
            add(&store.arrived[*place as usize].1);
        }
    }
    println!("{reads} {order} {sort}: {facts} facts, {sum}");
}
