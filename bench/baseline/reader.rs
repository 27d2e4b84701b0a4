//! The reader of bundles, line by line. docs/FORMATS.md, sections 3 to 6.
use crate::store::{Change, Row, Store, Table};
use crate::words::{self, Gtid, MOST_BYTES, MOST_SOURCES, Names, Set, Value, cut};
use std::collections::HashSet;
use std::io::{self, BufRead};
use std::rc::Rc;

pub enum Cause {
    Version,
    Keyword,
    Body,
    Limit,
    Schema,
    Twice(Gtid),
    SourcesFull,
}

pub enum Fault {
    Line(u64, Cause),
    Truncated(u64),
}

pub struct Entry {
    pub gtid: Gtid,
    pub changes: Box<[Change]>,
}

#[derive(Default)]
pub struct Journal {
    pub previous: Set,
    pub entries: Vec<Entry>,
}

#[derive(Clone, Copy, PartialEq)]
enum Due {
    Bundle,
    Replica,
    Tables,
    Rows,
    Channels,
    Journal,
    Previous,
    Between,
    Within,
    Ended,
}

pub struct Bundle {
    pub tables: Vec<Table>,
    pub rows: Vec<(u32, Row)>,
    pub store: Store,
    pub journals: Vec<Journal>,
}

struct Draft {
    due: Due,
    names: Names,
    channels: Names,
    bundle: Bundle,
    open: Journal,
    seen: HashSet<Gtid>,
    sources: HashSet<u128>,
    gtid: Gtid,
    changes: Vec<Change>,
}

fn version(rest: Option<&[u8]>) -> Result<(), Cause> {
    match rest {
        Some(b"1") => Ok(()),
        Some(word) if words::is_count(word) => Err(Cause::Version),
        _ => Err(Cause::Body),
    }
}

/// The values up to a bar or the end of the line, and what follows the bar.
fn values(text: &[u8]) -> Result<(Row, Option<&[u8]>), Cause> {
    let mut values = Vec::new();
    let mut left = text;
    loop {
        let (word, more) = cut(left);
        if word == b"|" {
            return match more {
                Some(after) if !values.is_empty() => Ok((values.into(), Some(after))),
                _ => Err(Cause::Body),
            };
        }
        values.push(words::value(word).ok_or(Cause::Body)?);
        match more {
            Some(after) => left = after,
            None => return Ok((values.into(), None)),
        }
    }
}

fn image(text: &[u8]) -> Result<Row, Cause> {
    match values(text)? {
        (row, None) => Ok(row),
        (_, Some(_)) => Err(Cause::Body),
    }
}

fn table_at(rest: Option<&[u8]>) -> Result<(&[u8], &[u8]), Cause> {
    let (name, more) = cut(rest.ok_or(Cause::Body)?);
    match more {
        Some(text) if words::is_name(name) => Ok((name, text)),
        _ => Err(Cause::Body),
    }
}

fn is_writable(row: &Row) -> bool {
    let fits = |v: &Value| !matches!(v, Value::Bytes(bytes) if bytes.len() > MOST_BYTES);
    row.len() <= 64 && row.iter().all(fits)
}

fn is_row_of(table: &Table, row: &Row) -> bool {
    row.len() == table.columns as usize && table.keys[0].iter().all(|c| row[*c as usize] != Value::Null)
}

/// The words of column numbers, where they are such and no number is there twice.
fn column_words(text: &[u8]) -> Result<Vec<&[u8]>, Cause> {
    let words: Vec<&[u8]> = text.split(|b| *b == b',').collect();
    let distinct: HashSet<&&[u8]> = words.iter().collect();
    if distinct.len() < words.len() || !words.iter().all(|w| words::is_count(w)) {
        return Err(Cause::Body);
    }
    Ok(words)
}

fn columns_below(limit: u64, words: &[&[u8]]) -> Result<Rc<[u32]>, Cause> {
    let below = |word: &&[u8]| match words::count(word) {
        Some(column) if column < limit => Ok(column as u32),
        _ => Err(Cause::Schema),
    };
    words.iter().map(below).collect()
}

impl Draft {
    fn take(&mut self, line: &[u8]) -> Result<(), Cause> {
        let (word, rest) = cut(line);
        match (self.due, word) {
            (Due::Bundle, b"bundle") => version(rest).map(|()| self.due = Due::Replica),
            (Due::Replica, b"replica") => {
                words::source(rest.ok_or(Cause::Body)?).ok_or(Cause::Body)?;
                self.due = Due::Tables;
                Ok(())
            }
            (Due::Tables, b"table") => self.add_table(rest),
            (Due::Tables | Due::Rows, b"row") => self.add_row(rest),
            (Due::Tables | Due::Rows | Due::Channels, b"channel") => self.open_channel(rest),
            (Due::Tables | Due::Rows | Due::Channels, b"done") => self.alone(rest, Due::Ended),
            (Due::Journal, b"journal") => version(rest).map(|()| self.due = Due::Previous),
            (Due::Previous, b"previous") => self.begin_journal(rest),
            (Due::Between, b"txn") => self.begin(rest),
            (Due::Between, b"close") => {
                self.alone(rest, Due::Channels)?;
                self.bundle.journals.push(std::mem::take(&mut self.open));
                Ok(())
            }
            (Due::Within, b"ins" | b"upd" | b"del") => self.add_change(word, rest),
            (Due::Within, b"end") => self.end(rest),
            _ => Err(Cause::Keyword),
        }
    }

    fn alone(&mut self, rest: Option<&[u8]>, next: Due) -> Result<(), Cause> {
        if rest.is_some() {
            return Err(Cause::Body);
        }
        self.due = next;
        Ok(())
    }

    fn add_table(&mut self, rest: Option<&[u8]>) -> Result<(), Cause> {
        let words: Vec<&[u8]> = rest.ok_or(Cause::Body)?.split(|b| *b == b' ').collect();
        let [name, columns, b"pk", primary, uniques @ ..] = words.as_slice() else {
            return Err(Cause::Body);
        };
        if !words::is_name(name) || !words::is_count(columns) {
            return Err(Cause::Body);
        }
        let mut keys = vec![column_words(primary)?];
        for pair in uniques.chunks(2) {
            let [b"uk", columns] = pair else {
                return Err(Cause::Body);
            };
            keys.push(column_words(columns)?);
        }
        let count = words::count(columns).unwrap_or(u64::MAX);
        if keys.len() > 9 || !(1..=64).contains(&count) || self.bundle.tables.len() >= 256 {
            return Err(Cause::Limit);
        }
        let keys = keys.iter().map(|words| columns_below(count, words)).collect::<Result<_, _>>()?;
        self.names.add(name).ok_or(Cause::Schema)?;
        self.bundle.tables.push(Table { name: (*name).into(), columns: count as u32, keys });
        Ok(())
    }

    fn leave_tables(&mut self) {
        if self.due == Due::Tables {
            self.bundle.store = Store::new(&self.bundle.tables);
            self.due = Due::Rows;
        }
    }

    fn add_row(&mut self, rest: Option<&[u8]>) -> Result<(), Cause> {
        let (name, text) = table_at(rest)?;
        let row = image(text)?;
        if !is_writable(&row) {
            return Err(Cause::Limit);
        }
        self.leave_tables();
        let table = self.names.find(name).ok_or(Cause::Schema)?;
        let tables = &self.bundle.tables;
        if !is_row_of(&tables[table as usize], &row) {
            return Err(Cause::Schema);
        }
        self.bundle.store.put(tables, table, &row).map_err(|_| Cause::Schema)?;
        self.bundle.rows.push((table, row));
        Ok(())
    }

    fn open_channel(&mut self, rest: Option<&[u8]>) -> Result<(), Cause> {
        let (name, more) = cut(rest.ok_or(Cause::Body)?);
        if !words::is_name(name) || !matches!(more, None | Some(b"preserve")) {
            return Err(Cause::Body);
        }
        if self.bundle.journals.len() >= 256 {
            return Err(Cause::Limit);
        }
        self.channels.add(name).ok_or(Cause::Schema)?;
        self.leave_tables();
        self.due = Due::Journal;
        Ok(())
    }

    fn begin_journal(&mut self, rest: Option<&[u8]>) -> Result<(), Cause> {
        let previous = words::set(rest.ok_or(Cause::Body)?).ok_or(Cause::Body)?;
        if previous.sources() > MOST_SOURCES {
            return Err(Cause::SourcesFull);
        }
        self.seen.clear();
        self.sources = previous.spans.iter().map(|s| s.0).collect();
        self.open.previous = previous;
        self.due = Due::Between;
        Ok(())
    }

    fn begin(&mut self, rest: Option<&[u8]>) -> Result<(), Cause> {
        self.gtid = words::gtid(rest.ok_or(Cause::Body)?).ok_or(Cause::Body)?;
        if self.open.previous.contains(self.gtid) || self.seen.contains(&self.gtid) {
            return Err(Cause::Twice(self.gtid));
        }
        self.due = Due::Within;
        Ok(())
    }

    fn add_change(&mut self, word: &[u8], rest: Option<&[u8]>) -> Result<(), Cause> {
        let (name, text) = table_at(rest)?;
        let table = self.names.find(name);
        let number = table.unwrap_or(0);
        let change = match (word, values(text)?) {
            (b"ins", (row, None)) => Change::Insert(number, row),
            (b"del", (row, None)) => Change::Delete(number, row),
            (b"upd", (before, Some(rest))) => Change::Update(number, before, image(rest)?),
            _ => return Err(Cause::Body),
        };
        let mut images = change.before().into_iter().chain(change.after());
        if self.changes.len() >= 65_536 || !images.all(is_writable) {
            return Err(Cause::Limit);
        }
        let table = &self.bundle.tables[table.ok_or(Cause::Schema)? as usize];
        let mut images = change.before().into_iter().chain(change.after());
        if !images.all(|row| is_row_of(table, row)) {
            return Err(Cause::Schema);
        }
        self.changes.push(change);
        Ok(())
    }

    fn end(&mut self, rest: Option<&[u8]>) -> Result<(), Cause> {
        self.alone(rest, Due::Between)?;
        self.sources.insert(self.gtid.source);
        if self.sources.len() > MOST_SOURCES {
            return Err(Cause::SourcesFull);
        }
        self.seen.insert(self.gtid);
        let changes = std::mem::take(&mut self.changes).into_boxed_slice();
        self.open.entries.push(Entry { gtid: self.gtid, changes });
        Ok(())
    }
}

/// The bundle that is read, or the first fault.
pub fn read(input: &mut impl BufRead) -> io::Result<Result<Bundle, Fault>> {
    let bundle = Bundle { tables: Vec::new(), rows: Vec::new(), store: Store::new(&[]), journals: Vec::new() };
    let mut draft = Draft {
        due: Due::Bundle,
        names: Names::default(),
        channels: Names::default(),
        bundle,
        open: Journal::default(),
        seen: HashSet::new(),
        sources: HashSet::new(),
        gtid: Gtid { source: 0, number: 1 },
        changes: Vec::new(),
    };
    let mut line = Vec::new();
    let mut number = 0;
    loop {
        line.clear();
        number += 1;
        if input.read_until(b'\n', &mut line)? == 0 {
            break;
        }
        if line.pop() != Some(b'\n') {
            if draft.due == Due::Ended {
                return Ok(Err(Fault::Line(number, Cause::Keyword)));
            }
            break;
        }
        if let Err(cause) = draft.take(&line) {
            return Ok(Err(Fault::Line(number, cause)));
        }
    }
    if draft.due != Due::Ended {
        return Ok(Err(Fault::Truncated(number)));
    }
    Ok(Ok(draft.bundle))
}
