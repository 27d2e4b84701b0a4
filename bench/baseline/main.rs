//! The same work in plain Rust, by the standard library alone: reads a bundle from standard input, audits its keys, applies it, and
//! prints what `gtidrep apply` prints (with the word `audit`: what `gtidrep audit` prints).
mod audit;
mod reader;
mod store;
mod words;

use audit::{Verdict, World, audit_keys};
use reader::{Bundle, Cause, Fault, read};
use std::io::{self, BufReader, Write};
use std::process::ExitCode;
use store::{RowFault, Store};
use words::{Gtid, Set, write_gtid, write_number, write_value};

fn fault_line(out: &mut Vec<u8>, fault: &Fault) {
    out.extend_from_slice(b"refused ");
    let (text, number): (&str, u64) = match fault {
        Fault::Truncated(line) => ("E15 truncated at line ", *line),
        Fault::Line(line, Cause::Version) => ("E17 version at line ", *line),
        Fault::Line(line, _) => ("E14 line ", *line),
    };
    match fault {
        Fault::Line(_, Cause::Twice(gtid)) => {
            out.extend_from_slice(b"E16 twice ");
            return write_gtid(out, *gtid);
        }
        Fault::Line(_, Cause::SourcesFull) => return out.extend_from_slice(b"E9 sources-full"),
        _ => {}
    }
    out.extend_from_slice(text.as_bytes());
    write_number(out, number);
    out.extend_from_slice(match fault {
        Fault::Line(_, Cause::Keyword) => b" keyword",
        Fault::Line(_, Cause::Body) => b" body",
        Fault::Line(_, Cause::Limit) => b" limit",
        Fault::Line(_, Cause::Schema) => b" schema",
        _ => b"",
    });
}

fn verdict_line(out: &mut Vec<u8>, bundle: &Bundle, verdict: &Verdict) {
    match verdict {
        Verdict::Unequal(gtid) => {
            out.extend_from_slice(b"unequal ");
            write_gtid(out, *gtid);
        }
        Verdict::Purged(journal, set) => {
            out.extend_from_slice(b"purged ");
            write_number(out, *journal as u64);
            out.push(b' ');
            set.write(out);
        }
        Verdict::Missing(gtid) => {
            out.extend_from_slice(b"missing ");
            write_gtid(out, *gtid);
        }
        Verdict::Shared(least, gtid, table, number, key) => {
            out.extend_from_slice(b"shared ");
            write_gtid(out, *least);
            out.push(b' ');
            write_gtid(out, *gtid);
            out.push(b' ');
            out.extend_from_slice(&bundle.tables[*table as usize].name);
            out.push(b' ');
            write_number(out, *number as u64);
            for value in key.values() {
                out.push(b' ');
                write_value(out, value);
            }
        }
        Verdict::NotClosed(gtid, least) => {
            out.extend_from_slice(b"not-closed ");
            write_gtid(out, *gtid);
            out.push(b' ');
            write_gtid(out, *least);
        }
    }
}

fn does_not_apply_line(out: &mut Vec<u8>, gtid: Gtid, fault: RowFault) {
    out.extend_from_slice(b"does-not-apply ");
    write_gtid(out, gtid);
    out.extend_from_slice(format!(" {} change {} key {}", fault.name, fault.change, fault.key).as_bytes());
}

/// Applies each channel's entries in order, each GTID once; whether all apply.
fn apply_channels(bundle: &Bundle, world: &World, store: &mut Store) -> bool {
    let mut executed = vec![false; world.contents.len()];
    for entry in bundle.journals.iter().flat_map(|j| &j.entries) {
        let at = world.places[&entry.gtid] as usize;
        if executed[at] {
            continue;
        }
        if store.apply(&bundle.tables, &entry.changes).is_err() {
            return false;
        }
        executed[at] = true;
    }
    true
}

/// The first GTID, in order, that does not apply to the opening rows and those before it.
fn first_fault(bundle: &Bundle, world: &World) -> Option<(Gtid, RowFault)> {
    let mut store = Store::new(&bundle.tables);
    for (table, row) in &bundle.rows {
        store.put(&bundle.tables, *table, row).expect("it was put before");
    }
    let mut faults = world.contents.iter().filter_map(|(gtid, entry)| {
        store.apply(&bundle.tables, &entry.changes).err().map(|fault| (*gtid, fault))
    });
    faults.next()
}

fn state_lines(out: &mut Vec<u8>, bundle: &Bundle, world: &World, store: &Store) {
    out.extend_from_slice(b"executed ");
    let gtids: Vec<Gtid> = world.contents.iter().map(|c| c.0).collect();
    Set::of_sorted(&gtids).write(out);
    let mut tables: Vec<usize> = (0..bundle.tables.len()).collect();
    tables.sort_unstable_by_key(|t| &bundle.tables[*t].name);
    for table in tables {
        for key in store.sorted(table) {
            out.extend_from_slice(b"\nrow ");
            out.extend_from_slice(&bundle.tables[table].name);
            for value in key.row.iter() {
                out.push(b' ');
                write_value(out, value);
            }
        }
    }
}

/// The lines that are printed, and whether all is well.
fn answer(out: &mut Vec<u8>, bundle: &mut Bundle, audits: bool) -> bool {
    let mut store = std::mem::replace(&mut bundle.store, Store::new(&[]));
    let world = match audit_keys(bundle) {
        Ok(world) => world,
        Err(verdict) => {
            verdict_line(out, bundle, &verdict);
            return false;
        }
    };
    if !apply_channels(bundle, &world, &mut store) {
        if let Some((gtid, fault)) = first_fault(bundle, &world) {
            does_not_apply_line(out, gtid, fault);
        }
        return false;
    }
    if audits {
        out.extend_from_slice(b"sound");
    } else {
        state_lines(out, bundle, &world, &store);
    }
    true
}

fn main() -> ExitCode {
    let audits = match std::env::args().nth(1).as_deref() {
        Some("audit") => true,
        Some("apply") => false,
        _ => return ExitCode::from(2),
    };
    let mut out = Vec::new();
    let well = match read(&mut BufReader::with_capacity(1 << 16, io::stdin().lock())) {
        Ok(Ok(mut bundle)) => {
            let well = answer(&mut out, &mut bundle, audits);
            // The program is about to end: nothing of this is given back piece by piece.
            std::mem::forget(bundle);
            well
        }
        Ok(Err(fault)) => {
            fault_line(&mut out, &fault);
            false
        }
        Err(_) => return ExitCode::from(4),
    };
    out.push(b'\n');
    if io::stdout().write_all(&out).is_err() {
        return ExitCode::from(4);
    }
    ExitCode::from(if well { 0 } else { 1 })
}
