//! A maker's own table: its load, exp under it, and T lent against T.

use oracle::axis_vectors::{random_list, Kind};
use oracle::clock::run;
use oracle::host_calls;
use oracle::numbers::{exp, exp_by, Stated as _, TABLE};
use oracle::random::Random;
use oracle::scenes::{fling_list, scene_list};
use oracle::tables::*;
use oracle::words::{away, in_bytes};

#[test]
fn tables_that_load_are_what_they_were() {
    for Good { name, table } in good(1) {
        let loaded = load(&bytes_of(&table)).unwrap_or_else(|number| panic!("{name}: {number}"));
        assert_eq!(loaded, table, "{name}");
    }
    let random = &mut Random::new(1);
    for _ in 0..1000 {
        let table = random_good(random);
        assert_eq!(load(&bytes_of(&table)), Ok(table));
    }
}

#[test]
fn equal_and_zero_entries_load() {
    let mut table = [FIRST; ENTRIES];
    assert!(load(&bytes_of(&table)).is_ok());
    for k in (1..ENTRIES).rev() {
        table[k] = 0;
        assert!(load(&bytes_of(&table)).is_ok(), "zeros from {k} on");
    }
}

#[test]
fn tables_that_do_not_load_have_their_numbers() {
    for Refused { why, bytes, number } in refused() {
        assert_eq!(load(&bytes), Err(number), "{why}");
    }
    let random = &mut Random::new(2);
    for _ in 0..1000 {
        let bytes = random_refused(random);
        let number = if bytes.len() == LENGTH { 11 } else { 10 };
        assert_eq!(load(&bytes), Err(number));
    }
}

/// One entry above the one before it by 1, at each place by itself; as large as the one before, it loads.
#[test]
fn every_entry_is_looked_at() {
    for k in 1..ENTRIES {
        let mut table = TABLE;
        table[k] = table[k - 1];
        assert!(load(&bytes_of(&table)).is_ok(), "{k}");
        table[k] += 1;
        assert_eq!(load(&bytes_of(&table)), Err(11), "{k}");
    }
}

#[test]
fn every_other_length_is_10() {
    let bytes = [t_bytes(), t_bytes()].concat();
    for length in (0..=2 * LENGTH).filter(|length| *length != LENGTH) {
        assert_eq!(load(&bytes[..length]), Err(10), "{length}");
    }
}

#[test]
fn the_lowest_byte_stands_first() {
    let bytes = t_bytes();
    assert_eq!(bytes[..8], [0, 0, 0, 0, 0, 1, 0, 0]);
    assert_eq!(bytes[8..16], TABLE[1].to_le_bytes());
    assert_eq!(bytes[LENGTH - 8..], TABLE[1024].to_le_bytes());
    assert_eq!(load(&bytes), Ok(Box::new(TABLE)));
}

#[test]
fn a_call_writes_a_table_only_where_it_loads() {
    let unwritten = [0xaa; LENGTH];
    for Refused { why, bytes, number } in refused() {
        let mut table = unwritten;
        assert_eq!(host_calls::table_load(&bytes, &mut table), number, "{why}");
        assert_eq!(table, unwritten, "{why}");
    }
    let (mut table, mut t) = (unwritten, unwritten);
    host_calls::table_t(&mut t);
    assert_eq!(host_calls::table_load(&t, &mut table), 0);
    assert_eq!((table, t), (t_bytes(), t_bytes()));
}

/// From 0 to below -80 through the patterns, every argument where an entry is taken by itself, and both zeros.
fn arguments() -> impl Iterator<Item = f32> {
    let through = (0..=81f32.to_bits()).step_by(500_009).map(f32::from_bits);
    let entries = (0..ENTRIES).map(|k| k as f32 / 64.0);
    let ends = [16.0, 32.0, 64.0, 80.0].map(|x| away(x, 1));
    let below = [100.0, f32::MAX, f32::INFINITY];
    let all = through.chain(entries).chain(ends).chain(below);
    all.map(|x| -x).chain([0.0])
}

/// By the first entry and the order alone.
#[test]
fn exp_is_from_0_to_1_under_every_table_that_loads() {
    let random = &mut Random::new(3);
    let mut tables: Vec<Box<Table>> = good(3).into_iter().map(|good| good.table).collect();
    tables.extend((0..100).map(|_| random_good(random)));
    for table in &tables {
        for x in arguments() {
            let found = exp_by(table, x);
            assert!((0.0..=1.0).contains(&found), "exp({x}) is {found}");
        }
        assert!(exp_by(table, f32::NAN).is_nan() && exp_by(table, 1.0).is_nan());
        assert_eq!(exp_by(table, 0.0), 1.0);
    }
}

#[test]
fn exp_reads_the_table_that_is_given() {
    let [zeros, ones] = [0, FIRST].map(|entry| {
        let mut table = [entry; ENTRIES];
        table[0] = FIRST;
        table
    });
    for x in arguments() {
        let (low, high) = (exp_by(&zeros, x), exp_by(&ones, x));
        // From the second entry on, in a half or its half as well.
        let is_later = [(-16.0, 1.0), (-32.0, 2.0), (-64.0, 4.0), (-80.0, 8.0)]
            .iter()
            .find(|(last, _)| *last <= x)
            .is_some_and(|(_, parts)| x / parts <= -1.0 / 64.0);
        assert!(!is_later || low == 0.0, "exp({x}) is {low}");
        assert!(x < -80.0 || 0.8 < high, "exp({x}) is {high}");
    }
}

#[test]
fn below_minus_16_the_squares_read_the_table_too() {
    for Good { name, table } in good(5) {
        for x in arguments().filter(|x| (-80.0..-16.0).contains(x)) {
            let half = exp_by(&table, x / 2.0);
            assert_eq!(exp_by(&table, x), half * half, "{name}: exp({x})");
        }
    }
}

#[test]
fn t_serves_where_no_table_is_given() {
    let zeros = kept(Box::new([0; ENTRIES]));
    assert_eq!((-1.0).stated_exp(), exp(-1.0));
    under(zeros, || {
        assert_eq!((-1.0).stated_exp(), 0.0);
        under(None, || assert_eq!((-1.0).stated_exp(), exp(-1.0)));
        under(&TABLE, || assert_eq!((-1.0).stated_exp(), exp(-1.0)));
        assert_eq!((-1.0).stated_exp(), 0.0);
    });
    assert_eq!((-1.0).stated_exp(), exp(-1.0));
}

#[test]
fn t_lent_is_t() {
    let lent = kept(load(&t_bytes()).expect("T loads"));
    for x in arguments() {
        let found = under(lent, || x.stated_exp());
        assert_eq!(found.to_bits(), exp(x).to_bits(), "exp({x})");
    }
    for list in [scene_list(6, 5000), fling_list(6, 5000)] {
        let bytes = list.concat();
        let lines = || -> Vec<String> {
            run(&bytes)
                .map(|(left, output)| left.full_line(&output))
                .collect()
        };
        assert_eq!(under(lent, lines), lines());
    }
}

/// The calls on records, with a table and without one.
#[test]
fn calls_by_t_are_the_calls_without_a_table() {
    let (mut by_t, mut by_none) = ([0; 156], [0; 156]);
    host_calls::fresh(&mut by_t);
    host_calls::fresh(&mut by_none);
    for frame in scene_list(8, 2000) {
        let (mut out, mut none_out) = ([0; 100], [0; 100]);
        let refusal = host_calls::frame_by(&mut by_t, &frame, &TABLE, &mut out);
        let none = host_calls::frame(&mut by_none, &frame, &mut none_out);
        assert_eq!((refusal, by_t, out), (none, by_none, none_out));
    }
    let steps = random_list(8, 3000);
    for step in steps.iter().filter(|call| call.kind() == Kind::Step) {
        let call = in_bytes(step.operands()).try_into().expect("a step");
        let (mut out, mut none_out) = ([0; 12], [0; 12]);
        let refusal = host_calls::step_by(&call, &TABLE, &mut out);
        let none = host_calls::step(&call, &mut none_out);
        assert_eq!((refusal, out), (none, none_out));
    }
}

/// The scenes have to show which table serves.
#[test]
fn frames_differ_under_another_table() {
    let bytes = fling_list(7, 5000).concat();
    let lines = || -> Vec<String> {
        run(&bytes)
            .map(|(left, output)| left.full_line(&output))
            .collect()
    };
    let by_t = lines();
    for Good { name, table } in good(7).into_iter().skip(1) {
        let by_table = under(kept(table), lines);
        let pairs = by_t.iter().zip(&by_table);
        let different = pairs.filter(|(t, table)| t != table).count();
        assert!(different >= 500, "{name}: {different}");
    }
}
