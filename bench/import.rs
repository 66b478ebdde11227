// A plain Rust program that imports components from CSV into a journal with a process unit 1: the yardstick of import.py.
// usage: import JOURNAL NUMBER <CSV
use std::collections::{BTreeMap, BTreeSet};
use std::fs::OpenOptions;
use std::io::{Read, Seek, SeekFrom, Write};

const COLUMNS: &str = "component,unit,kind,service,designation,plan,month,monomer,replaces,begin";
const KINDS: [&str; 4] = ["valve", "pump", "compressor", "relief"];
const SERVICES: [&str; 5] = ["gas", "light", "heavy", "vacuum", "under300"];
const DESIGNATIONS: [&str; 4] = ["none", "nde", "unsafe", "difficult"];

struct Component {
    component: u16,
    unit: u8,
    kind: u8,
    monomer: u8,
    replaces: u8,
    class: [u8; 4],
    begin: u16,
}

fn number(text: &str, greatest: u32) -> Option<u32> {
    if text.is_empty() || !text.bytes().all(|b| b.is_ascii_digit()) || (text.len() > 1 && text.starts_with('0')) {
        return None;
    }
    text.parse().ok().filter(|&n| n <= greatest)
}

fn word(text: &str, words: &[&str]) -> Option<u8> {
    Some(words.iter().position(|&w| w == text)? as u8 + 1)
}

// The day as a number from 1970-01-01 on.
fn day(text: &str) -> Option<u16> {
    let parts: Vec<&str> = text.split('-').collect();
    let [year, month, date] = parts[..] else { return None };
    if (year.len(), month.len(), date.len()) != (4, 2, 2) {
        return None;
    }
    let (year, month, date): (i64, i64, i64) = (year.parse().ok()?, month.parse().ok()?, date.parse().ok()?);
    let leap = year % 4 == 0 && (year % 100 != 0 || year % 400 == 0);
    let lengths = [31, if leap { 29 } else { 28 }, 31, 30, 31, 30, 31, 31, 30, 31, 30, 31];
    if !(2008..=2099).contains(&year) || !(1..=12).contains(&month) || date < 1 || date > lengths[month as usize - 1] {
        return None;
    }
    let before: i64 = lengths[..month as usize - 1].iter().sum();
    let y = year - 1;
    Some((y * 365 + y / 4 - y / 100 + y / 400 + before + date - 1 - 719_162) as u16)
}

fn row(line: &str) -> Option<Component> {
    let fields: Vec<&str> = line.split(',').collect();
    let [component, unit, kind, service, designation, plan, month, monomer, replaces, begin] = fields[..] else { return None };
    let designation = word(designation, &DESIGNATIONS)? - 1;
    let plan = number(plan, 60)? as u8;
    if (designation == 2) != (plan > 0) {
        return None;
    }
    Some(Component {
        component: number(component, 60_000).filter(|&n| n > 0)? as u16,
        unit: number(unit, 64).filter(|&n| n > 0)? as u8,
        kind: word(kind, &KINDS)?,
        monomer: number(monomer, 1)? as u8,
        replaces: number(replaces, 1)? as u8,
        class: [word(service, &SERVICES)?, designation, plan, number(month, 12).filter(|&n| n > 0)? as u8],
        begin: day(begin)?,
    })
}

fn spelling(number: u32, components: &[Component]) -> Vec<u8> {
    let mut bytes = vec![66, 0, 0];
    bytes.extend(number.to_be_bytes());
    bytes.extend((components.len() as u16).to_be_bytes());
    for c in components {
        bytes.push(2);
        bytes.extend(c.begin.to_be_bytes());
        bytes.extend([0, 0]);
        bytes.extend(c.component.to_be_bytes());
        bytes.extend([c.unit, c.kind, c.monomer, c.replaces]);
        bytes.extend(c.class);
    }
    bytes
}

fn main() {
    let words: Vec<String> = std::env::args().collect();
    let mut text = String::new();
    std::io::stdin().read_to_string(&mut text).unwrap();
    let mut lines = text.lines();
    assert_eq!(lines.next(), Some(COLUMNS));
    let rows: Vec<Component> = lines.enumerate().map(|(at, line)| row(line).unwrap_or_else(|| panic!("bad row {}", at + 2))).collect();
    let (difficult, mut rows): (Vec<_>, Vec<_>) = rows.into_iter().partition(|c| c.class[1] == 3);
    rows.extend(difficult);
    let mut file = OpenOptions::new().read(true).write(true).open(&words[1]).unwrap();
    let mut image = Vec::new();
    file.read_to_end(&mut image).unwrap();
    file.sync_all().unwrap();
    let mut place = image.len() as u64 - 1;
    let (mut entered, mut register, mut position) = (BTreeSet::new(), BTreeMap::new(), 1);
    let mut next: u32 = words[2].parse().unwrap();
    let mut output = std::io::stdout();
    for batch in rows.chunks(512) {
        for c in batch {
            assert!(c.unit == 1 && entered.insert(c.component), "denied");
            register.insert(c.component, (c.kind, c.class, c.begin));
        }
        let payload = spelling(next, batch);
        let mut frame = (payload.len() as u32).to_be_bytes().to_vec();
        frame.extend(&payload);
        frame.push(0);
        file.seek(SeekFrom::Start(place + 1)).unwrap();
        file.write_all(&frame).unwrap();
        file.sync_all().unwrap();
        file.seek(SeekFrom::Start(place)).unwrap();
        file.write_all(&[1]).unwrap();
        file.sync_all().unwrap();
        place += frame.len() as u64;
        position += 1;
        writeln!(output, "receipt 0 {next} {position}").unwrap();
        next += 1;
    }
    assert_eq!(register.len(), rows.len());
}
