//! What an audit of keys finds, in the order in which it is looked for.
use crate::reader::{Bundle, Entry};
use crate::store::{Key, keys_carried};
use crate::words::{Gtid, Set};
use std::collections::HashMap;

pub enum Verdict {
    Unequal(Gtid),
    Purged(usize, Set),
    Missing(Gtid),
    Shared(Gtid, Gtid, u32, usize, Key),
    NotClosed(Gtid, Gtid),
}

/// Each GTID with its content, in order, and the places of the GTIDs in that order.
pub struct World<'a> {
    pub contents: Vec<(Gtid, &'a Entry)>,
    pub places: HashMap<Gtid, u32>,
}

/// The world of the journals; or the first entry that has another content than one before it.
fn world(bundle: &Bundle) -> Result<World<'_>, Verdict> {
    let mut first: HashMap<Gtid, &Entry> = HashMap::new();
    for entry in bundle.journals.iter().flat_map(|j| &j.entries) {
        let known = *first.entry(entry.gtid).or_insert(entry);
        if known.changes != entry.changes {
            return Err(Verdict::Unequal(entry.gtid));
        }
    }
    let mut contents: Vec<(Gtid, &Entry)> = first.into_iter().collect();
    contents.sort_unstable_by_key(|c| c.0);
    let places = contents.iter().enumerate().map(|(at, c)| (c.0, at as u32)).collect();
    Ok(World { contents, places })
}

fn purged(bundle: &Bundle) -> Option<Verdict> {
    let at = bundle.journals.iter().position(|j| !j.previous.spans.is_empty())?;
    Some(Verdict::Purged(at, bundle.journals[at].previous.clone()))
}

fn missing(world: &World) -> Option<Verdict> {
    let mut before: Option<Gtid> = None;
    for (gtid, _) in &world.contents {
        let number = match before {
            Some(last) if last.source == gtid.source => last.number + 1,
            _ => 1,
        };
        if gtid.number != number {
            return Some(Verdict::Missing(Gtid { source: gtid.source, number }));
        }
        before = Some(*gtid);
    }
    None
}

/// The table, the number and the key of each key that an entry touches, in order.
fn keys_touched<'a>(bundle: &'a Bundle, entry: &'a Entry) -> impl Iterator<Item = (u32, usize, Key)> + 'a {
    entry.changes.iter().flat_map(move |change| {
        let images = change.before().into_iter().chain(change.after());
        images.flat_map(move |row| {
            let table = change.table();
            keys_carried(&bundle.tables[table as usize], row).map(move |(number, key)| (table, number, key))
        })
    })
}

/// For each GTID the last ones before it that touch one of its keys, unless two sources share a key.
fn needs(bundle: &Bundle, world: &World) -> Result<Vec<Vec<u32>>, Verdict> {
    let mut touchers: Vec<Vec<HashMap<Key, (u32, u32)>>> =
        bundle.tables.iter().map(|t| t.keys.iter().map(|_| HashMap::new()).collect()).collect();
    let mut needs = Vec::with_capacity(world.contents.len());
    for (at, (gtid, entry)) in world.contents.iter().enumerate() {
        let mut before = Vec::new();
        for (table, number, key) in keys_touched(bundle, entry) {
            let at = at as u32;
            let (first, last) = touchers[table as usize][number].entry(key.clone()).or_insert((at, at));
            let least = world.contents[*first as usize].0;
            if least.source != gtid.source {
                return Err(Verdict::Shared(least, *gtid, table, number, key));
            }
            if *last != at {
                before.push(*last);
                *last = at;
            }
        }
        needs.push(before);
    }
    Ok(needs)
}

/// The least GTID that comes before this one in its source, shares a key with it, and is absent.
fn left_out(bundle: &Bundle, world: &World, entry: &Entry, stands: &[bool]) -> Option<Gtid> {
    let keys: Vec<(u32, usize, Key)> = keys_touched(bundle, entry).collect();
    let own = |g: &Gtid| g.source == entry.gtid.source && g.number < entry.gtid.number;
    let found = world.contents.iter().enumerate().find(|(at, (gtid, other))| {
        own(gtid) && !stands[*at] && keys_touched(bundle, other).any(|key| keys.contains(&key))
    });
    found.map(|(_, (gtid, _))| *gtid)
}

fn not_closed(bundle: &Bundle, world: &World, needs: &[Vec<u32>]) -> Option<Verdict> {
    for journal in &bundle.journals {
        let mut stands = vec![false; world.contents.len()];
        for entry in &journal.entries {
            let at = world.places[&entry.gtid] as usize;
            if needs[at].iter().any(|before| !stands[*before as usize]) {
                let least = left_out(bundle, world, entry, &stands)?;
                return Some(Verdict::NotClosed(entry.gtid, least));
            }
            stands[at] = true;
        }
    }
    None
}

/// The world, where the audit of keys finds nothing.
pub fn audit_keys(bundle: &Bundle) -> Result<World<'_>, Verdict> {
    let world = world(bundle)?;
    if let Some(verdict) = purged(bundle).or_else(|| missing(&world)) {
        return Err(verdict);
    }
    let needs = needs(bundle, &world)?;
    match not_closed(bundle, &world, &needs) {
        Some(verdict) => Err(verdict),
        None => Ok(world),
    }
}
