// A plain Rust program that reads a journal of calibrations, checks it and keeps its batches: the yardstick of journal.py.
use std::collections::BTreeMap;
use std::io::Read;

enum Body {
    Calibration { instrument: u16, gas: u32 },
}

struct Fact {
    day: u16,
    minute: u16,
    body: Body,
}

struct Batch {
    handheld: u16,
    number: u32,
    facts: Vec<Fact>,
}

fn two(bytes: &[u8], at: usize) -> Option<u16> {
    Some(u16::from_be_bytes(bytes.get(at..at + 2)?.try_into().ok()?))
}

fn four(bytes: &[u8], at: usize) -> Option<u32> {
    Some(u32::from_be_bytes(bytes.get(at..at + 4)?.try_into().ok()?))
}

fn fact(bytes: &[u8]) -> Option<Fact> {
    let (day, minute, instrument, gas) = (two(bytes, 1)?, two(bytes, 3)?, two(bytes, 5)?, four(bytes, 7)?);
    let fits = bytes[0] == 7 && (13_879..=47_481).contains(&day) && minute < 1_440 && gas <= 1_000_000;
    fits.then_some(Fact { day, minute, body: Body::Calibration { instrument, gas } })
}

fn batch(bytes: &[u8]) -> Option<(Batch, usize)> {
    let (handheld, number, count) = (two(bytes, 1)?, four(bytes, 3)?, two(bytes, 7)? as usize);
    if bytes[0] != 66 || count == 0 || count > 512 {
        return None;
    }
    let mut facts = Vec::with_capacity(count);
    for i in 0..count {
        facts.push(fact(bytes.get(9 + 11 * i..)?)?);
    }
    Some((Batch { handheld, number, facts }, 9 + 11 * count))
}

fn opened(image: &[u8]) -> Option<(Vec<Batch>, usize)> {
    if image.get(..16)? != b"LDARJNL1\0\0\0\0\0\0\0\0" {
        return None;
    }
    let (mut batches, mut positions, mut facts, mut place) = (Vec::new(), BTreeMap::new(), 0, 16);
    while *image.get(place)? == 1 {
        let length = four(image, place + 1)? as usize;
        let mut payload = image.get(place + 5..place + 5 + length)?;
        while !payload.is_empty() {
            let (batch, used) = batch(payload)?;
            facts += batch.facts.len();
            if facts > 8_000_000 || positions.insert((batch.handheld, batch.number), batches.len()).is_some() {
                return None;
            }
            batches.push(batch);
            payload = &payload[used..];
        }
        place += 5 + length;
    }
    Some((batches, facts))
}

fn main() {
    let path = std::env::args().nth(1).expect("a path");
    let mut image = Vec::new();
    std::fs::File::open(path).and_then(|mut file| file.read_to_end(&mut image)).expect("a file");
    let (batches, facts) = opened(&image).expect("a journal");
    let sum: u64 = batches.iter().flat_map(|b| &b.facts).map(|f| match f.body {
        Body::Calibration { instrument, gas } => u64::from(f.day) + u64::from(f.minute) + u64::from(instrument) + u64::from(gas),
    }).sum();
    println!("{} {facts} {sum}", batches.len());
}
