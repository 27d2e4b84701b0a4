//! Writes a bundle or a journal of transactions that were never made, the same for the same words.
//!
//! usage: generate bundle|journal|sets [NAME=NUMBER]..
//!
//! Each source changes rows of its own, so the bundle is sound: each journal holds a beginning of a source's history, or several
//! such, in the source's order.
use std::fmt::Write as _;
use std::io::{self, Write};
use std::process::ExitCode;

struct Wish {
    seed: u64,
    /// Transactions of all sources together, each counted once.
    transactions: u64,
    sources: u64,
    channels: u64,
    /// How much of another source's history each channel carries too, in hundredths.
    overlap: u64,
    /// How many changes in a hundred go to one of eight rows of the source, and so wait for one another.
    conflicts: u64,
    /// Changes of a transaction.
    changes: u64,
    /// Bytes of a value.
    bytes: u64,
    /// Opening rows of each source, besides those eight.
    rows: u64,
    /// Intervals of each previous set (of `sets`).
    intervals: u64,
    /// Entries of each journal whose GTIDs lie between these intervals (of `sets`).
    between: u64,
}

impl Wish {
    fn put(&mut self, name: &str, number: u64) -> bool {
        let place = match name {
            "seed" => &mut self.seed,
            "transactions" => &mut self.transactions,
            "sources" => &mut self.sources,
            "channels" => &mut self.channels,
            "overlap" => &mut self.overlap,
            "conflicts" => &mut self.conflicts,
            "changes" => &mut self.changes,
            "bytes" => &mut self.bytes,
            "rows" => &mut self.rows,
            "intervals" => &mut self.intervals,
            "between" => &mut self.between,
            _ => return false,
        };
        *place = number;
        true
    }

    fn is_possible(&self) -> bool {
        (1..=65_536).contains(&self.sources)
            && (1..=256).contains(&self.channels)
            && (1..=65_536).contains(&self.changes)
            && self.overlap <= 100
            && self.conflicts <= 100
            && (8..=65_535).contains(&self.bytes)
    }
}

/// Numbers by the rule of `splitmix64`.
struct Dice(u64);

impl Dice {
    fn next(&mut self) -> u64 {
        self.0 = self.0.wrapping_add(0x9e37_79b9_7f4a_7c15);
        let mut z = self.0;
        z = (z ^ (z >> 30)).wrapping_mul(0xbf58_476d_1ce4_e5b9);
        z = (z ^ (z >> 27)).wrapping_mul(0x94d0_49bb_1331_11eb);
        z ^ (z >> 31)
    }

    fn below(&mut self, limit: u64) -> u64 {
        self.next() % limit
    }
}

fn uuid(source: u64) -> String {
    format!("{source:08x}-0000-4000-8000-{source:012x}")
}

/// A row of table `t`: its primary key, a unique name, bytes or null, and a number.
#[derive(Clone)]
struct Row {
    key: u64,
    filling: u64,
    number: i64,
}

fn push_row(out: &mut String, row: &Row, bytes: u64) {
    // the unique name: the key, and zeros up to the length
    let _ = write!(out, "{} x{:016x}", row.key, row.key);
    for _ in 8..bytes {
        out.push_str("00");
    }
    if row.filling % 10 == 0 {
        out.push_str(" null");
    } else {
        out.push_str(" x");
        let mut dice = Dice(row.filling);
        for _ in 0..bytes / 8 {
            let _ = write!(out, "{:016x}", dice.next());
        }
    }
    let _ = write!(out, " {}", row.number);
}

/// The rows of a source, and where its transactions end in its text.
struct Source {
    name: String,
    hot: Vec<Row>,
    live: Vec<Row>,
    fresh: u64,
    text: String,
    ends: Vec<usize>,
}

impl Source {
    fn new(source: u64, wish: &Wish) -> Source {
        let first = source * 1_000_000_000_000;
        let row = |key| Row { key, filling: key, number: 0 };
        let fresh = first + 8 + wish.rows;
        Source {
            name: uuid(source),
            hot: (first..first + 8).map(row).collect(),
            live: (first + 8..fresh).map(row).collect(),
            fresh,
            text: String::new(),
            ends: Vec::new(),
        }
    }

    fn push_update(text: &mut String, row: &mut Row, dice: &mut Dice, bytes: u64) {
        text.push_str("upd t ");
        push_row(text, row, bytes);
        row.filling = dice.next();
        row.number += dice.below(2000) as i64 - 1000;
        text.push_str(" | ");
        push_row(text, row, bytes);
        text.push('\n');
    }

    fn push_change(&mut self, dice: &mut Dice, wish: &Wish) {
        let bytes = wish.bytes;
        if dice.below(100) < wish.conflicts {
            let at = dice.below(8) as usize;
            return Source::push_update(&mut self.text, &mut self.hot[at], dice, bytes);
        }
        let turn = dice.below(10);
        if turn < 7 || self.live.is_empty() {
            let row = Row { key: self.fresh, filling: dice.next(), number: dice.below(1 << 40) as i64 };
            self.fresh += 1;
            self.text.push_str("ins t ");
            push_row(&mut self.text, &row, bytes);
            self.text.push('\n');
            self.live.push(row);
            return;
        }
        let at = dice.below(self.live.len() as u64) as usize;
        if turn < 9 {
            return Source::push_update(&mut self.text, &mut self.live[at], dice, bytes);
        }
        let row = self.live.swap_remove(at);
        self.text.push_str("del t ");
        push_row(&mut self.text, &row, bytes);
        self.text.push('\n');
    }

    fn push_transaction(&mut self, dice: &mut Dice, wish: &Wish) {
        let number = self.ends.len() + 1;
        let _ = writeln!(self.text, "txn {}:{number}", self.name);
        for _ in 0..wish.changes {
            self.push_change(dice, wish);
        }
        self.text.push_str("end\n");
        self.ends.push(self.text.len());
    }

    fn transaction(&self, at: usize) -> &str {
        let from = if at == 0 { 0 } else { self.ends[at - 1] };
        &self.text[from..self.ends[at]]
    }
}

fn histories(wish: &Wish, dice: &mut Dice, opening: &mut String) -> Vec<Source> {
    let mut sources: Vec<Source> = (0..wish.sources).map(|s| Source::new(s + 1, wish)).collect();
    for row in sources.iter().flat_map(|s| s.hot.iter().chain(&s.live)) {
        opening.push_str("row t ");
        push_row(opening, row, wish.bytes);
        opening.push('\n');
    }
    for turn in 0..wish.transactions {
        sources[(turn % wish.sources) as usize].push_transaction(dice, wish);
    }
    sources
}

/// Beginnings of histories, dealt into one another.
fn write_journal(out: &mut impl Write, dice: &mut Dice, parts: &[(&Source, usize)]) -> io::Result<()> {
    out.write_all(b"journal 1\nprevious -\n")?;
    let mut left: Vec<(&Source, usize, usize)> = parts.iter().map(|p| (p.0, 0, p.1)).filter(|p| p.2 > 0).collect();
    while !left.is_empty() {
        let at = dice.below(left.len() as u64) as usize;
        let (source, next, end) = &mut left[at];
        out.write_all(source.transaction(*next).as_bytes())?;
        *next += 1;
        if next == end {
            left.swap_remove(at);
        }
    }
    out.write_all(b"close\n")
}

fn write_bundle(out: &mut impl Write, wish: &Wish) -> io::Result<()> {
    let mut dice = Dice(wish.seed);
    let mut opening = String::new();
    let sources = histories(wish, &mut dice, &mut opening);
    writeln!(out, "bundle 1\nreplica {}\ntable t 4 pk 0 uk 1", uuid(0))?;
    out.write_all(opening.as_bytes())?;
    for channel in 0..wish.channels {
        writeln!(out, "channel c{channel}")?;
        let mut parts: Vec<(&Source, usize)> = Vec::new();
        for (at, source) in sources.iter().enumerate() {
            let whole = source.ends.len();
            let turn = at as u64 % wish.channels;
            if turn == channel {
                parts.push((source, whole));
            } else if turn == (channel + 1) % wish.channels {
                parts.push((source, whole * wish.overlap as usize / 100));
            }
        }
        write_journal(out, &mut dice, &parts)?;
    }
    out.write_all(b"done\n")
}

fn write_alone(out: &mut impl Write, wish: &Wish) -> io::Result<()> {
    let mut dice = Dice(wish.seed);
    let sources = histories(wish, &mut dice, &mut String::new());
    let parts: Vec<(&Source, usize)> = sources.iter().map(|s| (s, s.ends.len())).collect();
    write_journal(out, &mut dice, &parts)
}

/// Channels whose previous sets have many intervals: of each four numbers of a source the second and the third, with chance.
fn write_sets(out: &mut impl Write, wish: &Wish) -> io::Result<()> {
    let mut dice = Dice(wish.seed);
    writeln!(out, "bundle 1\nreplica {}", uuid(0))?;
    for channel in 0..wish.channels {
        write!(out, "channel c{channel}\njournal 1\nprevious ")?;
        for source in 0..wish.sources {
            let comma = if source > 0 { "," } else { "" };
            write!(out, "{comma}{}", uuid(source + 1))?;
            for turn in 0..wish.intervals / wish.sources {
                let low = 4 * turn + 2;
                match dice.below(2) {
                    0 => write!(out, ":{low}")?,
                    _ => write!(out, ":{low}-{}", low + 1)?,
                }
            }
        }
        out.write_all(b"\n")?;
        for turn in 0..wish.between {
            let (source, place) = (turn % wish.sources, turn / wish.sources);
            writeln!(out, "txn {}:{}\nend", uuid(source + 1), 4 * place + 4)?;
        }
        out.write_all(b"close\n")?;
    }
    out.write_all(b"done\n")
}

fn main() -> ExitCode {
    let mut wish = Wish {
        seed: 1,
        transactions: 10_000,
        sources: 4,
        channels: 4,
        overlap: 25,
        conflicts: 10,
        changes: 1,
        bytes: 16,
        rows: 100,
        intervals: 100_000,
        between: 0,
    };
    let words: Vec<String> = std::env::args().skip(1).collect();
    for word in words.iter().skip(1) {
        let known = match word.split_once('=') {
            Some((name, number)) => number.parse().is_ok_and(|number| wish.put(name, number)),
            None => false,
        };
        if !known {
            eprintln!("generate: no such wish: {word}");
            return ExitCode::from(2);
        }
    }
    let mut out = io::BufWriter::with_capacity(1 << 16, io::stdout().lock());
    let written = match words.first().map(String::as_str) {
        _ if !wish.is_possible() => return ExitCode::from(2),
        Some("bundle") => write_bundle(&mut out, &wish),
        Some("journal") => write_alone(&mut out, &wish),
        Some("sets") => write_sets(&mut out, &wish),
        _ => return ExitCode::from(2),
    };
    match written.and_then(|()| out.flush()) {
        Ok(()) => ExitCode::SUCCESS,
        Err(_) => ExitCode::from(4),
    }
}
