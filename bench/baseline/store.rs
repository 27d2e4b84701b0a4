//! Rows under their keys, and transactions that apply wholly or not at all.
use crate::words::Value;
use std::collections::HashSet;
use std::hash::{Hash, Hasher};
use std::rc::Rc;

pub type Row = Rc<[Value]>;

pub struct Table {
    pub name: Box<[u8]>,
    pub columns: u32,
    /// The columns of each key, the primary one first.
    pub keys: Vec<Rc<[u32]>>,
}

pub enum Change {
    Insert(u32, Row),
    Delete(u32, Row),
    Update(u32, Row, Row),
}

impl Change {
    pub fn table(&self) -> u32 {
        match self {
            Change::Insert(table, _) | Change::Delete(table, _) | Change::Update(table, _, _) => *table,
        }
    }

    pub fn before(&self) -> Option<&Row> {
        match self {
            Change::Insert(_, _) => None,
            Change::Delete(_, before) | Change::Update(_, before, _) => Some(before),
        }
    }

    pub fn after(&self) -> Option<&Row> {
        match self {
            Change::Delete(_, _) => None,
            Change::Insert(_, after) | Change::Update(_, _, after) => Some(after),
        }
    }
}

impl PartialEq for Change {
    fn eq(&self, other: &Change) -> bool {
        self.table() == other.table() && self.before() == other.before() && self.after() == other.after()
    }
}

/// A row as one of its keys sees it.
#[derive(Clone)]
pub struct Key {
    pub row: Row,
    pub columns: Rc<[u32]>,
}

impl Key {
    pub fn values(&self) -> impl Iterator<Item = &Value> {
        self.columns.iter().map(|c| &self.row[*c as usize])
    }
}

impl PartialEq for Key {
    fn eq(&self, other: &Key) -> bool {
        self.values().eq(other.values())
    }
}

impl Eq for Key {}

impl Hash for Key {
    fn hash<H: Hasher>(&self, state: &mut H) {
        for value in self.values() {
            value.hash(state);
        }
    }
}

/// The keys that a row carries, with their numbers. A unique key with a null is none.
pub fn keys_carried<'a>(table: &'a Table, row: &'a Row) -> impl Iterator<Item = (usize, Key)> + 'a {
    table.keys.iter().enumerate().filter_map(move |(number, columns)| {
        let key = Key { row: row.clone(), columns: columns.clone() };
        let is_null = number > 0 && key.values().any(|v| *v == Value::Null);
        (!is_null).then_some((number, key))
    })
}

/// E10, E11 or E12, with the number of the change and that of the key.
#[derive(Clone, Copy, Debug)]
pub struct RowFault {
    pub name: &'static str,
    pub change: usize,
    pub key: usize,
}

pub struct Store {
    /// For each table, for each of its keys, the rows that carry it.
    held: Vec<Vec<HashSet<Key>>>,
}

impl Store {
    pub fn new(tables: &[Table]) -> Store {
        let of_table = |table: &Table| table.keys.iter().map(|_| HashSet::new()).collect();
        Store { held: tables.iter().map(of_table).collect() }
    }

    /// Puts a row; the least key that is taken, where one is.
    pub fn put(&mut self, tables: &[Table], table: u32, row: &Row) -> Result<(), usize> {
        let held = &mut self.held[table as usize];
        for (number, key) in keys_carried(&tables[table as usize], row) {
            if held[number].contains(&key) {
                return Err(number);
            }
        }
        for (number, key) in keys_carried(&tables[table as usize], row) {
            held[number].insert(key);
        }
        Ok(())
    }

    fn remove(&mut self, tables: &[Table], table: u32, row: &Row) {
        for (number, key) in keys_carried(&tables[table as usize], row) {
            self.held[table as usize][number].remove(&key);
        }
    }

    fn change(&mut self, tables: &[Table], at: usize, change: &Change) -> Result<(), RowFault> {
        let table = change.table();
        if let Some(before) = change.before() {
            let key = Key { row: before.clone(), columns: tables[table as usize].keys[0].clone() };
            match self.held[table as usize][0].get(&key) {
                None => return Err(RowFault { name: "E10", change: at, key: 0 }),
                Some(found) if found.row != *before => {
                    return Err(RowFault { name: "E11", change: at, key: 0 });
                }
                Some(_) => self.remove(tables, table, before),
            }
        }
        if let Some(after) = change.after() {
            if let Err(key) = self.put(tables, table, after) {
                if let Some(before) = change.before() {
                    self.put(tables, table, before).expect("it stood there");
                }
                return Err(RowFault { name: "E12", change: at, key });
            }
        }
        Ok(())
    }

    /// Applies a transaction, or leaves the rows as they are.
    pub fn apply(&mut self, tables: &[Table], changes: &[Change]) -> Result<(), RowFault> {
        for (at, change) in changes.iter().enumerate() {
            if let Err(fault) = self.change(tables, at, change) {
                for done in changes[..at].iter().rev() {
                    if let Some(after) = done.after() {
                        self.remove(tables, done.table(), after);
                    }
                    if let Some(before) = done.before() {
                        self.put(tables, done.table(), before).expect("it stood there");
                    }
                }
                return Err(fault);
            }
        }
        Ok(())
    }

    /// The rows of a table, by primary key.
    pub fn sorted(&self, table: usize) -> Vec<&Key> {
        let mut rows: Vec<&Key> = self.held[table][0].iter().collect();
        rows.sort_unstable_by(|a, b| a.values().cmp(b.values()));
        rows
    }
}
