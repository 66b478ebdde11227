// HTTP requests with batches as JSON, read by hand, and their answers: what drain.py and serve.py send. Included by office.rs and serve.rs.

/// What a request asks.
enum Asked { Sync(Batch), Percent { unit: u8, quarter: u16, day: u16 } }

/// A request, its number of bytes, and whether the connection closes after it.
struct Wanted { asked: Asked, length: usize, closes: bool }

struct Json<'a> { rest: &'a [u8] }

impl<'a> Json<'a> {
    fn space(&mut self) { while let [b' ' | b'\t' | b'\r' | b'\n', rest @ ..] = self.rest { self.rest = rest; } }

    fn takes(&mut self, byte: u8) -> bool {
        self.space();
        match self.rest {
            [first, rest @ ..] if *first == byte => { self.rest = rest; true }
            _ => false,
        }
    }

    fn text(&mut self) -> Option<&'a str> {
        if !self.takes(b'"') { return None; }
        let end = self.rest.iter().position(|byte| *byte == b'"')?;
        let (text, rest) = self.rest.split_at(end);
        self.rest = &rest[1..];
        std::str::from_utf8(text).ok().filter(|text| !text.contains('\\'))
    }

    fn number(&mut self) -> Option<u32> {
        self.space();
        let end = self.rest.iter().position(|byte| !byte.is_ascii_digit()).unwrap_or(self.rest.len());
        let (digits, rest) = self.rest.split_at(end);
        if matches!(rest, [b'.' | b'e' | b'E', ..]) || digits.len() > 1 && digits[0] == b'0' { return None; }
        self.rest = rest;
        std::str::from_utf8(digits).ok()?.parse().ok()
    }

    /// Takes an object, key by key.
    fn object(&mut self, mut each: impl FnMut(&str, &mut Json<'a>) -> Option<()>) -> Option<()> {
        if !self.takes(b'{') { return None; }
        if self.takes(b'}') { return Some(()); }
        loop {
            let key = self.text()?;
            if !self.takes(b':') { return None; }
            each(key, self)?;
            if self.takes(b'}') { return Some(()); }
            if !self.takes(b',') { return None; }
        }
    }

    fn fact(&mut self) -> Option<Fact> {
        let (mut kind, mut day, mut minute, mut purpose) = (None, None, None, None);
        let (mut component, mut instrument, mut operator, mut ppm, mut background, mut gas, mut keys) = (0, 0, 0, None, None, None, 0);
        self.object(|key, json| {
            keys += 1;
            match key {
                "kind" => kind = Some(json.text()?),
                "day" => day = Some(day_of(json.text()?)?),
                "minute" => minute = Some(json.number().filter(|minute| *minute < 1_440)? as u16),
                "component" => component = json.number().filter(|number| (1..=60_000).contains(number))? as u16,
                "instrument" => instrument = json.number().filter(|number| (1..=65_535).contains(number))? as u16,
                "operator" => operator = json.number().filter(|number| (1..=65_535).contains(number))? as u16,
                "purpose" => purpose = Some(match json.text()? { "routine" => 1, "follow" => 2, _ => return None }),
                "ppm" => ppm = Some(json.number().filter(|ppm| *ppm < 1_000_000)?),
                "background" => background = Some(json.number().filter(|ppm| *ppm < 1_000_000)?),
                "gas" => gas = Some(json.number().filter(|ppm| (1..1_000_000).contains(ppm))?),
                _ => return None,
            }
            Some(())
        })?;
        let body = match (kind?, keys) {
            ("calibration", 5) if instrument > 0 => Body::Calibration { instrument, gas: gas? },
            ("reading", 7..=9) if component > 0 => Body::Reading { component, instrument, operator, purpose: purpose?, ppm: ppm?, background: background? },
            _ => return None,
        };
        Some(Fact { day: day?, minute: minute?, body })
    }

    fn batch(&mut self) -> Option<Batch> {
        let (mut handheld, mut number, mut facts) = (None, None, Vec::new());
        self.object(|key, json| {
            match key {
                "handheld" => handheld = Some(json.number().filter(|number| *number < 65_536)? as u16),
                "number" => number = Some(json.number()?),
                "facts" => {
                    if !json.takes(b'[') { return None; }
                    loop {
                        facts.push(json.fact()?);
                        if json.takes(b']') { break; }
                        if !json.takes(b',') { return None; }
                    }
                }
                _ => return None,
            }
            Some(())
        })?;
        self.space();
        ((1..=512).contains(&facts.len()) && self.rest.is_empty()).then_some(Batch { handheld: handheld?, number: number?, facts })
    }
}

fn day_of(text: &str) -> Option<u16> {
    let bytes = text.as_bytes();
    if bytes.len() != 10 || bytes[4] != b'-' || bytes[7] != b'-' { return None; }
    let (year, month, day): (u32, u32, u16) = (text[..4].parse().ok()?, text[5..7].parse().ok()?, text[8..].parse().ok()?);
    if !(2008..2100).contains(&year) || !(1..=12).contains(&month) { return None; }
    let first = law::first_day(year * 12 + month - 1);
    (1 <= day && first + day - 1 <= law::last_day(year * 12 + month - 1)).then_some(first + day - 1)
}

/// The request at the front of some bytes, once it is complete.
fn request_at(bytes: &[u8]) -> Option<Wanted> {
    let head = bytes.windows(4).position(|four| four == b"\r\n\r\n")? + 4;
    let text = std::str::from_utf8(&bytes[..head]).expect("a head");
    let mut lines = text.split("\r\n");
    let (method, target) = lines.next().expect("a line").split_once(' ').expect("a target");
    let path = target.split(' ').next().expect("a path");
    let (mut length, mut closes) = (0, false);
    for line in lines.filter(|line| !line.is_empty()) {
        let (name, value) = line.split_once(':').expect("a field");
        if name.eq_ignore_ascii_case("content-length") { length = value.trim().parse().expect("a length"); }
        closes |= name.eq_ignore_ascii_case("connection") && value.trim().eq_ignore_ascii_case("close");
        assert!(!name.eq_ignore_ascii_case("transfer-encoding"));
    }
    if bytes.len() < head + length { return None; }
    let asked = match (method, path) {
        ("POST", "/sync") => Asked::Sync(Json { rest: &bytes[head..head + length] }.batch().expect("a batch")),
        _ => {
            let mut parts = path.strip_prefix("/percent/").expect("a view").split('/');
            let (unit, quarter) = (parts.next().expect("a unit").parse().expect("a unit"), parts.next().expect("a quarter").parse().expect("a quarter"));
            Asked::Percent { unit, quarter, day: day_of(parts.next().expect("a day")).expect("a day") }
        }
    };
    Some(Wanted { asked, length: head + length, closes })
}

fn answer(out: &mut Vec<u8>, body: &str) {
    out.extend_from_slice(format!("HTTP/1.1 200 OK\r\nContent-Type: text/plain\r\nContent-Length: {}\r\n\r\n{body}", body.len()).as_bytes());
}
