// A plain Rust office over the file of a journal, with views that are kept: included by drill.rs and serve.rs.
// It judges each batch by the rules of denials.rs, and writes it like ldar: the frame, a sync, the gate before it, a sync.
use super::super as law;
use super::{Batch, Body, Class, Designation, Fact, Kind, Register, Service, Verdict, is_entry, key_of, verdict};
use std::collections::BTreeMap;
use std::fs::File;
use std::io::Read;
use std::os::unix::fs::FileExt;

include!("office_bytes.rs");

const HEADER: &[u8; 16] = b"LDARJNL1\0\0\0\0\0\0\0\0";

/// A batch on file, and the place of its first fact.
struct Kept { handheld: u16, number: u32, first: usize }

struct Desk {
    file: File,
    place: u64,
    register: Register,
    views: law::Office,
    kept: Vec<Kept>,
    positions: BTreeMap<(u16, u32), u32>,
    facts: Vec<law::Fact>,
    frame: Vec<u8>,
}

impl Desk {
    fn new(file: File) -> Desk {
        Desk {
            file,
            place: 16,
            register: Register::default(),
            views: law::Office::default(),
            kept: Vec::new(),
            positions: BTreeMap::new(),
            facts: Vec::new(),
            frame: Vec::new(),
        }
    }

    /// Makes a journal on an empty file.
    fn create(path: &str) -> Desk {
        let file = File::options().read(true).write(true).create(true).truncate(false).open(path).expect("a file");
        assert!(file.metadata().expect("a file").len() == 0, "the file is not empty");
        file.write_all_at(HEADER, 0).expect("a write");
        file.write_all_at(&[0], 16).expect("a write");
        file.sync_all().expect("a sync");
        Desk::new(file)
    }

    fn open(path: &str) -> Desk {
        let mut file = File::options().read(true).write(true).open(path).expect("a file");
        file.sync_all().expect("a sync");
        let mut bytes = Vec::new();
        file.read_to_end(&mut bytes).expect("a journal");
        assert!(bytes[..16] == HEADER[..], "no journal");
        let mut desk = Desk::new(file);
        let mut at = 16;
        while bytes[at] == 1 {
            let length = u32::from_be_bytes(bytes[at + 1..at + 5].try_into().unwrap()) as usize;
            let mut payload = Bytes { rest: &bytes[at + 5..at + 5 + length] };
            while !payload.rest.is_empty() {
                let batch = payload.batch(Vec::new()).expect("a batch");
                assert!(desk.is_new(&batch) && verdict(&desk.register, desk.count(), &batch) == Verdict::Pass, "not ruly");
                desk.keep(&batch);
            }
            at += 5 + length;
        }
        desk.place = at as u64;
        desk
    }

    fn count(&self) -> u64 { self.views.facts.len() as u64 }
    fn is_new(&self, batch: &Batch) -> bool { !self.positions.contains_key(&(batch.handheld, batch.number)) }

    fn keep(&mut self, batch: &Batch) {
        self.kept.push(Kept { handheld: batch.handheld, number: batch.number, first: self.views.facts.len() });
        self.positions.insert((batch.handheld, batch.number), self.kept.len() as u32);
        self.facts.clear();
        for (index, fact) in batch.facts.iter().enumerate() {
            if is_entry(&fact.body) { self.register.insert(key_of(batch, index), fact); }
            self.facts.push(law_fact(fact));
        }
        self.views.adopt(batch.handheld, batch.number, &self.facts);
    }

    fn same(&self, position: u32, batch: &Batch) -> bool {
        let at = position as usize - 1;
        let end = self.kept.get(at + 1).map_or(self.views.facts.len(), |next| next.first);
        let facts = &self.views.facts[self.kept[at].first..end];
        facts.len() == batch.facts.len() && facts.iter().zip(&batch.facts).all(|((_, kept), fact)| *kept == law_fact(fact))
    }

    /// Keeps batches at once, in one frame, and tells the position of each.
    fn dock(&mut self, group: &[Batch]) -> Vec<u32> {
        let (mut held, mut new) = (self.count(), Vec::new());
        self.frame.clear();
        self.frame.extend_from_slice(&[0; 4]);
        for batch in group {
            if let Some(position) = self.positions.get(&(batch.handheld, batch.number)) {
                assert!(self.same(*position, batch), "a conflict");
            } else {
                assert!(verdict(&self.register, held, batch) == Verdict::Pass, "a denial");
                held += batch.facts.len() as u64;
                put_bytes(&mut self.frame, batch);
                new.push(batch);
            }
        }
        if !new.is_empty() {
            let length = (self.frame.len() - 4) as u32;
            self.frame[..4].copy_from_slice(&length.to_be_bytes());
            self.frame.push(0);
            self.file.write_all_at(&self.frame, self.place + 1).expect("a write");
            self.file.sync_all().expect("a sync");
            self.file.write_all_at(&[1], self.place).expect("a gate");
            self.file.sync_all().expect("a sync");
            self.place += 5 + u64::from(length);
            for batch in new { self.keep(batch); }
        }
        group.iter().map(|batch| self.positions[&(batch.handheld, batch.number)]).collect()
    }

    fn percent(&mut self, unit: u8, quarter: u16, day: u16) -> String {
        let entry = self.views.entries[usize::from(unit)].expect("a unit");
        law::percent_text(&mut self.views, &entry, quarter, day)
    }
}
