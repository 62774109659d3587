//! Tables: their loads, and those under which calls are compared.

use oracle::host_calls;
use oracle::numbers::TABLE;
use oracle::random::Random;
use oracle::tables::{bytes_of, good, kept, random_good, random_refused, refused, unloaded};
use oracle::tables::{Table, TableBytes, LENGTH};

use crate::tally::{Part, Tally};

/// What a buffer holds that no call has written.
const UNWRITTEN: u8 = 0xaa;

/// Random tables, beside one of each kind.
const RANDOM: usize = 200;

/// Tables that nobody can have loaded, beside these.
const UNLOADED: usize = 20;

/// A table: what is lent to the library, and the oracle's.
pub struct Lent {
    pub name: String,
    pub bytes: TableBytes,
    pub entries: &'static Table,
}

/// How a table is named where the two sides differ.
pub fn name_of(table: Option<&Lent>) -> &str {
    table.map_or("no table", |lent| &lent.name)
}

/// The tables under which calls are compared.
pub struct Pool {
    /// T, as the library writes it.
    pub t: Lent,
    others: Vec<Lent>,
}

impl Pool {
    /// T, one table of each kind, and random ones; that they load is compared too. And some that do not load.
    pub fn new(tally: &mut Tally, seed: u64) -> Pool {
        let mut random = Random::new(seed ^ 0xaaaa);
        let mut tables: Vec<Box<Table>> = good(seed).into_iter().map(|good| good.table).collect();
        tables.extend((0..RANDOM).map(|_| random_good(&mut random)));
        let others = tables.into_iter().enumerate().map(|(number, table)| {
            let name = format!("table {number} of seed {seed}");
            let bytes = bytes_of(&table);
            compare(tally, &name, &bytes);
            let entries = kept(table);
            Lent {
                name,
                bytes,
                entries,
            }
        });
        let mut others: Vec<Lent> = others.collect();
        others.extend((0..UNLOADED).map(|number| not_loaded(&mut random, seed, number)));
        Pool {
            others,
            t: written_t(tally),
        }
    }
}

/// As many bytes as a table has, which do not load and are lent all the same.
fn not_loaded(random: &mut Random, seed: u64, number: usize) -> Lent {
    let bytes = loop {
        if let Ok(bytes) = random_refused(random).try_into() {
            break bytes;
        }
    };
    Lent {
        name: format!("bytes {number} of seed {seed}, not loaded"),
        bytes,
        entries: kept(unloaded(&bytes)),
    }
}

/// T as the library writes it, compared with the oracle's.
fn written_t(tally: &mut Tally) -> Lent {
    let (mut bytes, mut rust_bytes) = ([UNWRITTEN; LENGTH], [UNWRITTEN; LENGTH]);
    strakobud::table_t(&mut bytes);
    host_calls::table_t(&mut rust_bytes);
    tally.count(Part::Loads, 0, bytes == rust_bytes, || {
        format!("T itself{}", first_difference(&bytes, &rust_bytes))
    });
    Lent {
        name: "T lent".to_owned(),
        bytes,
        entries: &TABLE,
    }
}

/// A load of each reason that is known, then random ones, of which half are refused.
pub fn loads(tally: &mut Tally, seed: u64, count: u64) {
    for refused in refused() {
        compare(tally, &refused.why, &refused.bytes);
    }
    let mut random = Random::new(seed ^ 0x3333);
    for done in 1..=count {
        let bytes = match random.below(2) {
            0 => random_refused(&mut random),
            _ => bytes_of(&random_good(&mut random)).to_vec(),
        };
        compare(tally, &format!("load {done} of seed {seed}"), &bytes);
        if done % 1_000 == 0 || done == count {
            tally.progress(Part::Loads.name(), done, count);
        }
    }
}

fn compare(tally: &mut Tally, name: &str, bytes: &[u8]) {
    let (mut table, mut rust_table) = ([UNWRITTEN; LENGTH], [UNWRITTEN; LENGTH]);
    let refusal = strakobud::table_load(bytes, &mut table);
    let rust_refusal = host_calls::table_load(bytes, &mut rust_table);
    let same = (refusal, table) == (rust_refusal, rust_table);
    tally.count(Part::Loads, rust_refusal, same, || {
        let place = first_difference(&table, &rust_table);
        format!("{name}: library {refusal}, oracle {rust_refusal}{place}")
    });
}

/// Where two tables differ first, in words.
fn first_difference(table: &TableBytes, rust_table: &TableBytes) -> String {
    let mut places = (0..LENGTH).filter(|place| table[*place] != rust_table[*place]);
    let place = places.next();
    place.map_or(String::new(), |place| format!(", from byte {place} on"))
}

/// Which table serves: none where there is no pool, else one that changes now and then.
pub struct Serving<'a> {
    pool: Option<&'a Pool>,
    random: Random,
    now: Option<&'a Lent>,
}

impl<'a> Serving<'a> {
    pub fn new(pool: Option<&'a Pool>, seed: u64) -> Serving<'a> {
        Serving {
            pool,
            random: Random::new(seed ^ 0xcccc),
            now: None,
        }
    }

    /// The one for the next call; none for T built in.
    pub fn next(&mut self) -> Option<&'a Lent> {
        let pool = self.pool?;
        if self.random.below(6) == 0 {
            self.now = match self.random.below(8) {
                0 => None,
                1 => Some(&pool.t),
                _ => Some(&pool.others[self.random.below(pool.others.len())]),
            };
        }
        self.now
    }
}
