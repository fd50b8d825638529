//! Reads traces of document 01 on standard input, runs the unchanged Rust on
//! them and writes what was seen. See README.md.

mod records;
mod trace;

use consensus::oracle_driver::Replica;
use records::End;
use std::io::{Read, Write};
use trace::{Input, Taken};

const USAGE: &str = "usage: oracle [--as-01 | --rust] [--raw] [--who] [--notes] [--pack] < trace > outputs
  --as-01  (default) the Rust's outputs with the intended differences taken out
  --rust   the Rust's outputs as they are
  --raw    answer only 16, 33 and 34 before the Rust; give it what 01 refuses with 17, 19, 20, 32
  --who    ANSWER 22 and 24 carry the place that the Rust's error names (request W2)
  --notes  what has no record, as lines on standard error
  --pack   many traces: for each a length of 4 bytes and its bytes; out: for each the code that the program
           would end with (1 byte), a length of 4 bytes and the outputs
exit: 0 whole trace run; 3 the Rust panicked; 4 the Rust's state parts from 01's (31); 2 usage";

#[derive(Default)]
struct Options {
    rust: bool,
    raw: bool,
    who: bool,
    notes: bool,
    pack: bool,
}

impl Options {
    fn read(args: impl Iterator<Item = String>) -> Option<Self> {
        let mut options = Self::default();
        for arg in args {
            match arg.as_str() {
                "--as-01" => options.rust = false,
                "--rust" => options.rust = true,
                "--raw" => options.raw = true,
                "--who" => options.who = true,
                "--notes" => options.notes = true,
                "--pack" => options.pack = true,
                _ => return None,
            }
        }
        Some(options)
    }
}

/// What one trace has given so far.
struct Run<'a> {
    options: &'a Options,
    out: Vec<u8>,
    events: u64,
    replica: Option<Replica>,
    last_committed: u64,
}

impl<'a> Run<'a> {
    fn new(options: &'a Options) -> Self {
        Self {
            options,
            out: Vec::new(),
            events: 0,
            replica: None,
            last_committed: 0,
        }
    }

    fn note(&self, text: &str) {
        if self.options.notes {
            eprintln!("event {}: {}", self.events, text);
        }
    }

    fn answer(&mut self, number: u16, who: Option<u16>) {
        let who = if self.options.who { who } else { None };
        self.out.extend(records::answer_bytes(number, who));
    }

    /// The whole trace; the exit code.
    fn trace(&mut self, mut rest: &[u8]) -> u8 {
        loop {
            match trace::take(rest) {
                Taken::End => return 0,
                Taken::Broken => {
                    self.answer(16, None);
                    return 0;
                }
                Taken::Record(record, after) => {
                    rest = after;
                    let code = self.record(record);
                    if code != 0 {
                        return code;
                    }
                    self.events += 1;
                }
            }
        }
    }

    fn record(&mut self, record: &[u8]) -> u8 {
        let seen = match (trace::parse(record, self.options.raw), &mut self.replica) {
            (None, _) => Err(16),
            (Some(Input::Start(_)), Some(_)) => Err(34),
            (Some(Input::Start(setup)), None) if !self.options.raw && trace::bad_setup(&setup) => Err(17),
            (Some(Input::Start(setup)), None) => {
                let (replica, seen) = Replica::start(&setup);
                self.replica = Some(replica);
                Ok(seen)
            }
            (Some(Input::Event(_)), None) => Err(33),
            (Some(Input::Event(event)), Some(replica)) => {
                match trace::refused(&event, replica.round()) {
                    Some(number) if !self.options.raw => Err(number),
                    _ => Ok(replica.step(&event)),
                }
            }
        };
        let (outs, end) = match seen {
            Err(number) => (Vec::new(), End::Answer(number, None)),
            Ok(seen) if self.options.rust => records::as_rust(seen),
            Ok(seen) => records::as_01(seen, &mut self.last_committed),
        };
        for out in &outs {
            self.out.extend(records::bytes(out));
            for text in records::notes(out) {
                self.note(&text);
            }
        }
        if let Some(replica) = &self.replica {
            self.note(&format!("round {}, {} blocks stored", replica.round(), replica.stored()));
        }
        match end {
            End::Answer(number, who) => {
                self.answer(number, who);
                0
            }
            End::Parted(number, text) => {
                self.note(&text);
                self.answer(number, None);
                if number == 31 {
                    4
                } else {
                    3
                }
            }
            End::Panic(text) => {
                self.note(&text);
                self.out.extend(records::panic_bytes(&text));
                3
            }
        }
    }
}

/// The traces of a pack; None when a length is cut or says more than there is.
fn unpacked(mut input: &[u8]) -> Option<Vec<&[u8]>> {
    let mut traces = Vec::new();
    while !input.is_empty() {
        let mut length = [0; 4];
        length.copy_from_slice(input.get(..4)?);
        let end = 4 + u32::from_le_bytes(length) as usize;
        traces.push(input.get(4..end)?);
        input = &input[end..];
    }
    Some(traces)
}

fn run() -> Result<u8, String> {
    let options = Options::read(std::env::args().skip(1)).ok_or(USAGE)?;
    let mut input = Vec::new();
    std::io::stdin()
        .read_to_end(&mut input)
        .map_err(|e| format!("reading the trace: {}", e))?;
    let mut out = std::io::BufWriter::new(std::io::stdout());
    let mut write = |bytes: &[u8]| out.write_all(bytes).map_err(|e| format!("writing: {}", e));
    if !options.pack {
        let mut one = Run::new(&options);
        let code = one.trace(&input);
        write(&one.out)?;
        return Ok(code);
    }
    for trace in unpacked(&input).ok_or("the pack is cut")? {
        let mut one = Run::new(&options);
        write(&[one.trace(trace)])?;
        write(&(one.out.len() as u32).to_le_bytes())?;
        write(&one.out)?;
    }
    Ok(0)
}

fn main() {
    let code = run().unwrap_or_else(|text| {
        eprintln!("{}", text);
        2
    });
    std::process::exit(i32::from(code));
}
