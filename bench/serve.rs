// A plain Rust office that answers HTTP requests and keeps what its views make: the yardstick of serve.py, and of the rounds of drain.py.
// usage: serve JOURNAL drain | serve JOURNAL serve PORT WORKERS    like ldar
// One mutex is round the office. A worker holds it for the requests that it has in hand, writes and syncs included.
#![allow(dead_code)]

mod law {
    use std::borrow::Cow;
    use std::fmt::Write as _;

    include!("rule.rs");
    include!("kept.rs");

    pub mod rules {
        include!("denials.rs");

        pub mod office {
            use std::io::Write;
            use std::net::{TcpListener, TcpStream};
            use std::sync::Mutex;

            include!("kept_journal.rs");
            include!("requests.rs");

            /// The next requests in hand: up to 16 batches, which share a frame, or one view. Returns the bytes used, 0 if no request is whole.
            fn answer_some(desk: &Mutex<Desk>, window: &[u8], said: &mut Vec<u8>) -> (usize, bool) {
                let (mut group, mut view, mut at, mut closes) = (Vec::new(), None, 0, false);
                while group.len() < 16 && !closes {
                    let Some(wanted) = request_at(&window[at..]) else { break };
                    at += wanted.length;
                    closes = wanted.closes;
                    match wanted.asked {
                        Asked::Sync(batch) => group.push(batch),
                        Asked::Percent { unit, quarter, day } => {
                            view = Some((unit, quarter, day));
                            break;
                        }
                    }
                }
                if at == 0 { return (0, false); }
                let mut desk = desk.lock().expect("the office");
                let positions = desk.dock(&group);
                for (batch, position) in group.iter().zip(positions) { answer(said, &format!("receipt {} {} {position}\n", batch.handheld, batch.number)); }
                if let Some((unit, quarter, day)) = view { answer(said, &desk.percent(unit, quarter, day)); }
                (at, closes)
            }

            /// Answers requests until the input ends, one closes the connection or an answer is not taken.
            fn session(desk: &Mutex<Desk>, mut input: impl Read, mut output: impl Write) {
                let (mut window, mut at, mut piece, mut said) = (Vec::new(), 0, vec![0; 65_536], Vec::new());
                loop {
                    let (used, closes) = answer_some(desk, &window[at..], &mut said);
                    if used == 0 {
                        let Ok(count @ 1..) = input.read(&mut piece) else { return };
                        window.drain(..at);
                        at = 0;
                        window.extend_from_slice(&piece[..count]);
                        continue;
                    }
                    at += used;
                    if output.write_all(&said).is_err() || output.flush().is_err() || closes { return; }
                    said.clear();
                }
            }

            fn work(desk: &Mutex<Desk>, listener: &TcpListener) {
                for stream in listener.incoming() {
                    let stream: TcpStream = stream.expect("a connection");
                    stream.set_nodelay(true).expect("a connection");
                    session(desk, &stream, &stream);
                }
            }

            pub fn main() {
                let words: Vec<String> = std::env::args().skip(1).collect();
                let words: Vec<&str> = words.iter().map(String::as_str).collect();
                let desk = Mutex::new(Desk::open(words[0]));
                match words[1..] {
                    ["drain"] => session(&desk, std::io::stdin().lock(), std::io::stdout().lock()),
                    ["serve", port, workers] => {
                        let workers: u16 = workers.parse().expect("workers");
                        let listener = TcpListener::bind(("127.0.0.1", port.parse().expect("a port"))).expect("a port");
                        eprintln!("listening on 127.0.0.1:{port}, workers: {workers}");
                        std::thread::scope(|threads| {
                            for _ in 0..workers { threads.spawn(|| work(&desk, &listener)); }
                        });
                    }
                    _ => panic!("drain, or serve with a port and workers"),
                }
            }
        }
    }
}

fn main() { law::rules::office::main() }
