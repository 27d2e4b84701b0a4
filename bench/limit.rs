//! How fast it can be: the work of `gtidrep apply` on a bundle of generate.rs, in plain Rust and as little of it as the answer needs. It
//! prints what `gtidrep apply` prints (with the word `decode`, it only reads).
//!
//! A word has one spelling, so an image stays where it was read, and images and keys are compared, hashed and printed as texts. One table
//! of keys serves the audit and the rows, and all is applied in the order of GTIDs. What no such bundle has is refused by one word:
//! keys of several columns, previous sets, a text that ends early (but with `decode`), any fault and any verdict but `sound`.
use std::collections::HashMap;
use std::io::{self, Read, Write};

/// A piece of the input; an empty one is none.
#[derive(Clone, Copy, Default)]
struct Text {
    from: u32,
    len: u32,
}

struct Table {
    name: Vec<u8>,
    columns: usize,
    /// The column of each key, the primary key first.
    keys: Vec<usize>,
    /// The number of its first key among those of all tables.
    first_key: u32,
}

/// A key of an image.
#[derive(Clone, Copy)]
struct Touch {
    hash: u64,
    text: Text,
    key: u32,
}

/// The keys of the before image, and then those of the after image, begin at `touch`.
struct Change {
    table: u32,
    before: Text,
    after: Text,
    touch: u32,
}

struct Transaction {
    source: u32,
    number: u64,
    first: u32,
    end: u32,
}

/// What is under a key, and the last source that touched it.
#[derive(Clone, Copy)]
struct Slot {
    touch: Touch,
    row: Text,
    source: u32,
}

const NO_SOURCE: u32 = u32::MAX;

fn refuse(why: &str) -> ! {
    println!("refused {why}");
    std::process::exit(1)
}

fn hash(key: u32, bytes: &[u8]) -> u64 {
    let mix = |state: u64, word: u64| {
        let product = u128::from(state ^ word) * 0xa076_1d64_78bd_642f;
        product as u64 ^ (product >> 64) as u64
    };
    let mut state = mix(0x9e37_79b9_7f4a_7c15, u64::from(key));
    let mut chunks = bytes.chunks_exact(8);
    for chunk in &mut chunks {
        state = mix(state, u64::from_le_bytes(chunk.try_into().unwrap()));
    }
    let mut rest = [0; 8];
    rest[..chunks.remainder().len()].copy_from_slice(chunks.remainder());
    mix(state, u64::from_le_bytes(rest) ^ (bytes.len() as u64) << 56)
}

/// What has been read of a text, which ends with a line feed.
struct Reader<'a> {
    text: &'a [u8],
    at: usize,
    tables: Vec<Table>,
    numbers: HashMap<&'a [u8], u32>,
    sources: Vec<&'a [u8]>,
    touches: Vec<Touch>,
    changes: Vec<Change>,
    transactions: Vec<Transaction>,
    opening: Vec<Change>,
}

impl<'a> Reader<'a> {
    /// The bytes up to the next blank or line feed.
    fn word(&mut self) -> &'a [u8] {
        let from = self.at;
        while self.text[self.at] > b' ' {
            self.at += 1;
        }
        &self.text[from..self.at]
    }

    /// The bytes of the next value.
    fn value(&mut self) -> Text {
        let from = self.at;
        match self.text[from] {
            b'x' => {
                self.at += 1;
                while matches!(self.text[self.at], b'0'..=b'9' | b'a'..=b'f') {
                    self.at += 1;
                }
                if (self.at - from) % 2 == 0 {
                    refuse("body")
                }
            }
            b'n' => {
                if self.word() != b"null" {
                    refuse("body")
                }
            }
            first => {
                self.at += usize::from(first == b'-');
                let digits = self.at;
                while self.text[self.at].is_ascii_digit() {
                    self.at += 1;
                }
                let zero = self.text[digits] == b'0' && (self.at - digits > 1 || first == b'-');
                if self.at == digits || self.at - digits > 18 || zero {
                    refuse("body")
                }
            }
        }
        if self.text[self.at] > b' ' {
            refuse("body")
        }
        Text { from: from as u32, len: (self.at - from) as u32 }
    }

    fn blank(&mut self) {
        if self.text[self.at] != b' ' {
            refuse("body")
        }
        self.at += 1;
    }

    fn end_line(&mut self) {
        if self.text[self.at] != b'\n' {
            refuse("body")
        }
        self.at += 1;
    }

    fn line(&mut self) -> Vec<&'a [u8]> {
        let mut words = vec![self.word()];
        while self.text[self.at] == b' ' {
            self.at += 1;
            words.push(self.word());
        }
        self.end_line();
        words
    }

    /// An image of a row of a table. Its keys join the touches; a unique key with a null is none.
    fn image(&mut self, table: usize) -> Text {
        let from = self.at;
        let first = self.touches.len();
        let none = Touch { hash: 0, text: Text::default(), key: self.tables[table].first_key };
        self.touches.resize(first + self.tables[table].keys.len(), none);
        for column in 0..self.tables[table].columns {
            if column > 0 {
                self.blank();
            }
            let text = self.value();
            let bytes = &self.text[text.from as usize..self.at];
            for (number, of) in self.tables[table].keys.iter().enumerate() {
                if *of == column && bytes != b"null" {
                    let key = self.tables[table].first_key + number as u32;
                    self.touches[first + number] = Touch { hash: hash(key, bytes), text, key };
                } else if *of == column && number == 0 {
                    refuse("schema")
                }
            }
        }
        Text { from: from as u32, len: (self.at - from) as u32 }
    }

    fn table(&mut self) -> usize {
        self.blank();
        let name = self.word();
        self.blank();
        match self.tables.iter().position(|table| table.name == name) {
            Some(table) => table,
            None => refuse("schema"),
        }
    }

    fn change(&mut self, has_before: bool, has_after: bool) -> Change {
        let table = self.table();
        let touch = self.touches.len() as u32;
        let before = if has_before { self.image(table) } else { Text::default() };
        if has_before && has_after {
            if &self.text[self.at..self.at + 3] != b" | " {
                refuse("body")
            }
            self.at += 3;
        }
        let after = if has_after { self.image(table) } else { Text::default() };
        self.end_line();
        Change { table: table as u32, before, after, touch }
    }

    fn begin_transaction(&mut self) {
        self.blank();
        let word = self.word();
        if word.len() < 38 || word[36] != b':' {
            refuse("body")
        }
        let next = self.sources.len() as u32;
        let source = *self.numbers.entry(&word[..36]).or_insert(next);
        if source == next {
            self.sources.push(&word[..36]);
        }
        let Some(number) = std::str::from_utf8(&word[37..]).ok().and_then(|digits| digits.parse().ok()) else {
            refuse("body")
        };
        self.end_line();
        let first = self.changes.len() as u32;
        self.transactions.push(Transaction { source, number, first, end: first });
    }

    /// The lines before the first channel.
    fn head(&mut self) {
        if self.line() != [b"bundle".as_slice(), b"1"] || self.line()[0] != b"replica" {
            refuse("head")
        }
        while self.text[self.at..].starts_with(b"table ") {
            let words = self.line();
            let number = |word: &[u8]| match std::str::from_utf8(word).ok().and_then(|digits| digits.parse().ok()) {
                Some(number) => number,
                None => refuse("key"),
            };
            let first_key = self.tables.last().map_or(0, |table| table.first_key + table.keys.len() as u32);
            let keys = words[4..].iter().step_by(2).map(|word| number(word)).collect();
            self.tables.push(Table { name: words[1].to_vec(), columns: number(words[2]), keys, first_key });
        }
        while self.text[self.at..].starts_with(b"row ") {
            self.at += 3;
            let row = self.change(false, true);
            self.opening.push(row);
        }
    }

    /// The lines of channels and journals; whether the last line has come.
    fn channels(&mut self) -> bool {
        while self.at < self.text.len() {
            match self.word() {
                b"txn" => self.begin_transaction(),
                b"end" => {
                    self.end_line();
                    let end = self.changes.len() as u32;
                    self.transactions.last_mut().unwrap_or_else(|| refuse("keyword")).end = end;
                }
                b"ins" => self.push(false, true),
                b"upd" => self.push(true, true),
                b"del" => self.push(true, false),
                b"channel" | b"journal" | b"close" => drop(self.line()),
                b"previous" => {
                    if self.line() != [b"".as_slice(), b"-"] {
                        refuse("previous")
                    }
                }
                b"done" => return true,
                _ => refuse("keyword"),
            }
        }
        false
    }

    fn push(&mut self, has_before: bool, has_after: bool) {
        let change = self.change(has_before, has_after);
        self.changes.push(change);
    }

    fn bytes(&self, text: Text) -> &'a [u8] {
        &self.text[text.from as usize..(text.from + text.len) as usize]
    }

    /// For each source the places of its transactions, by number from 1 on.
    fn by_number(&self) -> Vec<Vec<u32>> {
        let mut places = vec![Vec::new(); self.sources.len()];
        for (place, it) in self.transactions.iter().enumerate() {
            let list: &mut Vec<u32> = &mut places[it.source as usize];
            let at = it.number.wrapping_sub(1) as usize;
            if at == list.len() {
                list.push(place as u32);
            } else if at > list.len() || !self.are_equal(it, &self.transactions[list[at] as usize]) {
                refuse("order")
            }
        }
        places
    }

    fn are_equal(&self, a: &Transaction, b: &Transaction) -> bool {
        let of = |it: &Transaction| self.changes[it.first as usize..it.end as usize].iter();
        let alike = |(a, b): (&Change, &Change)| {
            a.table == b.table && self.bytes(a.before) == self.bytes(b.before) && self.bytes(a.after) == self.bytes(b.after)
        };
        of(a).len() == of(b).len() && of(a).zip(of(b)).all(alike)
    }
}

/// What is under keys: an open table, at most half full.
struct Rows<'a> {
    reader: &'a Reader<'a>,
    slots: Vec<Slot>,
}

impl<'a> Rows<'a> {
    fn new(reader: &'a Reader<'a>) -> Self {
        let touch = Touch { hash: 0, text: Text::default(), key: 0 };
        let free = Slot { touch, row: Text::default(), source: NO_SOURCE };
        Rows { reader, slots: vec![free; (2 * reader.touches.len() + 1).next_power_of_two()] }
    }

    fn slot(&mut self, touch: Touch) -> &mut Slot {
        let mask = self.slots.len() - 1;
        let mut at = touch.hash as usize & mask;
        loop {
            let there = self.slots[at].touch;
            if there.text.len == 0 {
                self.slots[at].touch = touch;
                break;
            }
            if there.hash == touch.hash && there.key == touch.key && self.reader.bytes(there.text) == self.reader.bytes(touch.text) {
                break;
            }
            at = (at + 1) & mask;
        }
        &mut self.slots[at]
    }

    /// Writes a row, or none, under each of these keys; a source touches them.
    fn write(&mut self, touches: &[Touch], source: u32, row: Text, was: Text) {
        let was_bytes = self.reader.bytes(was);
        for touch in touches.iter().filter(|touch| touch.text.len > 0) {
            let reader = self.reader;
            let slot = self.slot(*touch);
            if slot.source != source && slot.source != NO_SOURCE && source != NO_SOURCE {
                refuse("shared")
            }
            if reader.bytes(slot.row) != was_bytes {
                refuse("row")
            }
            slot.row = row;
            slot.source = source;
        }
    }

    fn apply(&mut self, change: &Change, source: u32) {
        let keys = self.reader.tables[change.table as usize].keys.len();
        let touches = &self.reader.touches[change.touch as usize..];
        let (front, back) = touches.split_at(if change.before.len > 0 { keys } else { 0 });
        self.write(front, source, Text::default(), change.before);
        if change.after.len > 0 {
            self.write(&back[..keys], source, change.after, Text::default());
        }
    }

    /// The rows of each table, by name, and then by a primary key that is a number.
    fn sorted(&self) -> Vec<(&'a [u8], i64, Text)> {
        let mut rows = Vec::new();
        for slot in self.slots.iter().filter(|slot| slot.row.len > 0) {
            if let Some(table) = self.reader.tables.iter().find(|table| table.first_key == slot.touch.key) {
                let digits = std::str::from_utf8(self.reader.bytes(slot.touch.text)).unwrap_or_default();
                rows.push((table.name.as_slice(), digits.parse().unwrap_or_else(|_| refuse("key")), slot.row));
            }
        }
        rows.sort_unstable_by_key(|row| (row.0, row.1));
        rows
    }
}

fn print(reader: &Reader, places: &[Vec<u32>], rows: &Rows) -> io::Result<()> {
    let mut out = b"executed ".to_vec();
    let mut sources: Vec<usize> = (0..reader.sources.len()).collect();
    sources.sort_unstable_by_key(|source| reader.sources[*source]);
    for (n, source) in sources.into_iter().enumerate() {
        out.extend_from_slice(if n > 0 { b"," } else { b"" });
        out.extend_from_slice(reader.sources[source]);
        out.extend_from_slice(if places[source].len() > 1 { format!(":1-{}", places[source].len()) } else { ":1".into() }.as_bytes());
    }
    for (name, _, row) in rows.sorted() {
        out.extend_from_slice(b"\nrow ");
        out.extend_from_slice(name);
        out.push(b' ');
        out.extend_from_slice(reader.bytes(row));
    }
    out.push(b'\n');
    io::stdout().write_all(&out)
}

fn main() -> io::Result<()> {
    let only_decodes = std::env::args().nth(1).as_deref() == Some("decode");
    let mut text = Vec::with_capacity(io::stdin().lock().bytes().size_hint().0);
    io::stdin().lock().read_to_end(&mut text)?;
    let last = text.iter().rposition(|byte| *byte == b'\n').map_or(0, |at| at + 1);
    let mut reader = Reader {
        text: &text[..last],
        at: 0,
        tables: Vec::new(),
        numbers: HashMap::new(),
        sources: Vec::new(),
        touches: Vec::new(),
        changes: Vec::new(),
        transactions: Vec::new(),
        opening: Vec::new(),
    };
    reader.head();
    let is_whole = reader.channels();
    if only_decodes {
        return Ok(());
    }
    if !is_whole {
        refuse("truncated")
    }
    let places = reader.by_number();
    let mut rows = Rows::new(&reader);
    for row in &reader.opening {
        rows.apply(row, NO_SOURCE);
    }
    for (source, list) in places.iter().enumerate() {
        for place in list {
            let it = &reader.transactions[*place as usize];
            for change in &reader.changes[it.first as usize..it.end as usize] {
                rows.apply(change, source as u32);
            }
        }
    }
    print(&reader, &places, &rows)
}
