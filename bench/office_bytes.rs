// The bytes of batches in plain Rust, and the facts of denials.rs as those of rule.rs: included by office.rs, drill.rs and serve.rs.

// ---- bytes

struct Bytes<'a> { rest: &'a [u8] }

impl Bytes<'_> {
    fn number(&mut self, width: usize, low: u32, high: u32) -> Option<u32> {
        let (now, rest) = self.rest.split_at_checked(width)?;
        self.rest = rest;
        let value = now.iter().fold(0, |value, byte| value << 8 | u32::from(*byte));
        (low <= value && value <= high).then_some(value)
    }

    fn flag(&mut self) -> Option<bool> { Some(self.number(1, 0, 1)? == 1) }
    fn component(&mut self) -> Option<u16> { Some(self.number(2, 1, 60_000)? as u16) }
    fn unit(&mut self) -> Option<u8> { Some(self.number(1, 1, 64)? as u8) }
    fn instrument(&mut self) -> Option<u16> { Some(self.number(2, 1, 65_535)? as u16) }
    fn ppm(&mut self) -> Option<u32> { self.number(4, 0, 999_999) }

    fn class(&mut self) -> Option<Class> {
        let service = [Service::Gas, Service::Light, Service::Heavy, Service::Vacuum, Service::Under300][self.number(1, 1, 5)? as usize - 1];
        let designation = [Designation::Plain, Designation::Nde, Designation::Unsafe, Designation::Difficult][self.number(1, 0, 3)? as usize];
        let plan = if designation == Designation::Unsafe { self.number(1, 1, 60)? } else { self.number(1, 0, 0)? } as u8;
        Some(Class { service, designation, plan, month: self.number(1, 1, 3)? as u8 })
    }

    fn name(&mut self) -> Option<[u8; 12]> {
        let (now, rest) = self.rest.split_first_chunk::<12>()?;
        self.rest = rest;
        let length = now.iter().position(|byte| *byte == 0).unwrap_or(12);
        let fits = now[..length].iter().all(|byte| byte.is_ascii_uppercase() || byte.is_ascii_digit() || *byte == b'-');
        (length > 0 && fits && now[length..].iter().all(|byte| *byte == 0)).then_some(*now)
    }

    fn tested(&mut self) -> Option<(u16, u32, (u32, u32, u32))> {
        Some((self.instrument()?, self.number(4, 1, 999_999)?, (self.ppm()?, self.ppm()?, self.ppm()?)))
    }

    fn fact(&mut self) -> Option<Fact> {
        let kind = self.number(1, 1, 15)?;
        let (day, minute) = (self.number(2, 13_879, 47_481)? as u16, self.number(2, 0, 1_439)? as u16);
        let body = match kind {
            1 => Body::Unit { unit: self.unit()?, older: self.flag()?, name: self.name()? },
            2 => Body::Component {
                component: self.component()?,
                unit: self.unit()?,
                kind: [Kind::Valve, Kind::Pump, Kind::Compressor, Kind::Relief][self.number(1, 1, 4)? as usize - 1],
                monomer: self.flag()?,
                replaces: self.flag()?,
                class: self.class()?,
            },
            3 => Body::Class { component: self.component()?, class: self.class()? },
            4 => Body::Retire { component: self.component()? },
            5 => Body::Election {
                unit: self.unit()?,
                mode: self.number(1, 0, 3).filter(|mode| *mode != 2)? as u8,
                notified: self.number(2, 13_879, 47_481)? as u16,
            },
            6 => Body::Shutdown { unit: self.unit()?, days: self.number(2, 1, 366)? as u16 },
            7 => Body::Calibration { instrument: self.instrument()?, gas: self.number(4, 1, 999_999)? },
            8 => {
                let (instrument, value, readings) = self.tested()?;
                Body::Precision { instrument, value, readings }
            }
            9 => {
                let (instrument, value, readings) = self.tested()?;
                Body::Drift { instrument, value, readings }
            }
            10 => Body::Reading {
                component: self.component()?,
                instrument: self.number(2, 0, 65_535)? as u16,
                operator: self.number(2, 0, 65_535)? as u16,
                purpose: self.number(1, 1, 2)? as u8,
                ppm: self.ppm()?,
                background: self.ppm()?,
            },
            11 => Body::Visual { component: self.component()?, state: self.number(1, 0, 2)? as u8 },
            12 => Body::Attempt { component: self.component()?, complete: self.flag()? },
            13 => Body::Delay {
                component: self.component()?,
                ground: self.number(1, 0, 5)? as u8,
                signer: self.number(2, 0, 65_535)? as u16,
                expected: match self.number(2, 0, 47_481)? {
                    0 => None,
                    day => Some(day as u16).filter(|day| *day >= 13_879).map(Some)?,
                },
            },
            14 => Body::Release { component: self.component()? },
            _ => Body::Indication { component: self.component()?, sensor: self.number(1, 1, 2)? == 1, present: self.flag()? },
        };
        Some(Fact { day, minute, body })
    }

    fn batch(&mut self, facts: Vec<Fact>) -> Option<Batch> {
        self.number(1, 66, 66)?;
        let (handheld, number) = (self.number(2, 0, 65_535)? as u16, self.number(4, 0, u32::MAX)?);
        let count = self.number(2, 1, 512)?;
        let mut batch = Batch { handheld, number, facts };
        batch.facts.clear();
        for _ in 0..count { batch.facts.push(self.fact()?); }
        Some(batch)
    }
}

/// Appends the bytes of a batch.
fn put_bytes(out: &mut Vec<u8>, batch: &Batch) {
    out.push(66);
    out.extend_from_slice(&batch.handheld.to_be_bytes());
    out.extend_from_slice(&batch.number.to_be_bytes());
    out.extend_from_slice(&(batch.facts.len() as u16).to_be_bytes());
    for fact in &batch.facts {
        out.push(match fact.body {
            Body::Unit { .. } => 1,
            Body::Component { .. } => 2,
            Body::Calibration { .. } => 7,
            Body::Precision { .. } => 8,
            Body::Reading { .. } => 10,
            _ => panic!("only five kinds are written"),
        });
        out.extend_from_slice(&fact.day.to_be_bytes());
        out.extend_from_slice(&fact.minute.to_be_bytes());
        match fact.body {
            Body::Unit { unit, older, name } => {
                out.extend_from_slice(&[unit, u8::from(older)]);
                out.extend_from_slice(&name);
            }
            Body::Component { component, unit, kind, monomer, replaces, class } => {
                out.extend_from_slice(&component.to_be_bytes());
                out.extend_from_slice(&[unit, kind as u8 + 1, u8::from(monomer), u8::from(replaces)]);
                out.extend_from_slice(&[class.service as u8 + 1, class.designation as u8, class.plan, class.month]);
            }
            Body::Calibration { instrument, gas } => {
                out.extend_from_slice(&instrument.to_be_bytes());
                out.extend_from_slice(&gas.to_be_bytes());
            }
            Body::Precision { instrument, value, readings } => {
                out.extend_from_slice(&instrument.to_be_bytes());
                for number in [value, readings.0, readings.1, readings.2] { out.extend_from_slice(&number.to_be_bytes()); }
            }
            Body::Reading { component, instrument, operator, purpose, ppm, background } => {
                for number in [component, instrument, operator] { out.extend_from_slice(&number.to_be_bytes()); }
                out.push(purpose);
                for number in [ppm, background] { out.extend_from_slice(&number.to_be_bytes()); }
            }
            _ => {}
        }
    }
}

fn law_kind(kind: Kind) -> law::Kind {
    match kind {
        Kind::Valve => law::Kind::Valve,
        Kind::Pump => law::Kind::Pump,
        Kind::Compressor => law::Kind::Compressor,
        Kind::Relief => law::Kind::Relief,
    }
}

fn law_class(class: &Class) -> law::Class {
    let service = match class.service {
        Service::Gas => law::Service::Gas,
        Service::Light => law::Service::Light,
        Service::Heavy => law::Service::Heavy,
        Service::Vacuum => law::Service::Vacuum,
        Service::Under300 => law::Service::Under300,
    };
    let designation = match class.designation {
        Designation::Plain => law::Designation::Plain,
        Designation::Nde => law::Designation::Nde,
        Designation::Unsafe => law::Designation::Unsafe,
        Designation::Difficult => law::Designation::Difficult,
    };
    law::Class { service, designation, plan: class.plan, month: class.month }
}

fn law_fact(fact: &Fact) -> law::Fact {
    let body = match fact.body {
        Body::Unit { unit, older, name } => law::Body::Unit { unit, older, name },
        Body::Component { component, unit, kind, monomer, replaces, class } => {
            law::Body::Component { component, unit, kind: law_kind(kind), monomer, replaces, class: law_class(&class) }
        }
        Body::Class { component, class } => law::Body::Class { component, class: law_class(&class) },
        Body::Retire { component } => law::Body::Retire { component },
        Body::Election { unit, mode, notified } => law::Body::Election { unit, mode, notified },
        Body::Shutdown { unit, days } => law::Body::Shutdown { unit, days },
        Body::Calibration { instrument, gas } => law::Body::Calibration { instrument, gas },
        Body::Precision { instrument, value, readings } => law::Body::Precision { instrument, value, readings },
        Body::Drift { instrument, value, readings } => law::Body::Drift { instrument, value, readings },
        Body::Reading { component, instrument, operator, purpose, ppm, background } => {
            law::Body::Reading { component, instrument, operator, routine: purpose == 1, ppm, background }
        }
        Body::Visual { component, state } => {
            law::Body::Visual { component, state: [law::State::Dry, law::State::Drips, law::State::Designated][usize::from(state)] }
        }
        Body::Attempt { component, complete } => law::Body::Attempt { component, complete },
        Body::Delay { component, ground, signer, expected } => law::Body::Delay { component, ground, signer, expected },
        Body::Release { component } => law::Body::Release { component },
        Body::Indication { component, sensor, present } => law::Body::Indication { component, sensor, present },
    };
    law::Fact { day: fact.day, minute: fact.minute, body }
}
