//! Lists of calls on drawers, judged by what they hold.

use oracle::drawer::{chains_of, faults, ids_of, lay, Held, RECORD};
use oracle::drawer_vectors::{fixed_list, honest_list, written_list, Call, Kept, UNWRITTEN};

/// The answer by what the drawer holds, and the state that a load hands out.
fn by_held(held: &mut Held, call: &Call) -> (u32, [u8; 156]) {
    let mut out = UNWRITTEN;
    let refusal = match call {
        Call::Save(id, state) => held.save(*id, state),
        Call::Load(id) => held.load(*id, &mut out),
        Call::Forget(id) => held.forget(*id),
        _ => 0,
    };
    (refusal, out)
}

/// That every answer on a drawer that nobody else wrote is by what it holds, and its chains ascend; says how many there were.
fn assert_held(list: &[Call]) -> usize {
    let (mut kept, mut held) = (Kept::none(), None);
    let mut judged = 0;
    for call in list {
        let refusal = kept.call(call);
        match (call, &mut held) {
            (Call::Lay, _) if refusal == 0 => held = Some(Held::fresh(kept.bytes.len() / RECORD)),
            (Call::Given(_) | Call::Put(..), _) => held = None,
            (_, None) => {}
            (_, Some(held)) => {
                assert_eq!((refusal, kept.state), by_held(held, call), "{call:?}");
                assert_eq!(faults(&kept.bytes), []);
                assert!(chains_of(&kept.bytes).len() == 17 && do_ascend(&kept.bytes));
                judged += 1;
            }
        }
    }
    judged
}

/// Within each chain.
fn do_ascend(bytes: &[u8]) -> bool {
    let ids = ids_of(bytes);
    ids.windows(2)
        .all(|pair| pair[0] % 16 < pair[1] % 16 || pair[0] < pair[1])
}

#[test]
fn answers_are_by_what_a_drawer_holds() {
    assert!(assert_held(&fixed_list()) > 1_000);
    for seed in 1..=5 {
        assert!(assert_held(&honest_list(seed, 4_000)) > 3_500);
    }
}

/// Every list of four calls on fresh drawers of up to four records, with ids of which two share a chain.
#[test]
fn answers_of_every_short_list_are_by_what_a_drawer_holds() {
    let ids = [0, 1, 16];
    let of_id = |id: u64| {
        let save = Call::Save(id, Box::new([0; 156]));
        [save, Call::Load(id), Call::Forget(id)]
    };
    let calls: Vec<Call> = ids.into_iter().flat_map(of_id).collect();
    for records in 1..=4 {
        let fresh = [Call::Given(vec![0xee; records * RECORD]), Call::Lay];
        for way in 0..calls.len().pow(4) {
            let digit = |place: u32| calls[way / calls.len().pow(place) % calls.len()].clone();
            let list = [fresh.to_vec(), (0..4).map(digit).collect()].concat();
            assert_eq!(assert_held(&list), 4);
        }
    }
}

#[test]
fn refusals_change_nothing() {
    for list in [fixed_list(), honest_list(7, 4_000), written_list(8, 8_000)] {
        let mut kept = Kept::none();
        let mut refused = 0;
        for call in &list {
            let before = kept.bytes.clone();
            if kept.call(call) != 0 {
                assert!(kept.bytes == before && kept.state == UNWRITTEN, "{call:?}");
                refused += 1;
            }
        }
        assert!(refused > 800, "{refused}");
    }
}

/// A call changes no other record but for its next index, and of record 0 only heads.
#[test]
fn other_records_are_left_alone() {
    for list in [fixed_list(), written_list(9, 8_000)] {
        let mut kept = Kept::none();
        for call in &list {
            let before = kept.bytes.clone();
            kept.call(call);
            if matches!(call, Call::Given(_) | Call::Put(..) | Call::Lay) {
                continue;
            }
            let records = before.chunks(RECORD).zip(kept.bytes.chunks(RECORD));
            let bodies = records.enumerate().filter(|(record, (old, new))| {
                let links = if *record == 0 { 4 * 17 } else { 4 };
                old.get(links..) != new.get(links..)
            });
            assert!(bodies.count() <= 1, "{call:?}");
        }
    }
}

/// All records serve: as many new ids as there is room for, again and again.
#[test]
fn no_record_is_lost() {
    let mut kept = Kept::none();
    kept.bytes = vec![0; 25 * RECORD];
    lay(&mut kept.bytes);
    for round in 0..20 {
        let id = |number: u64| number * (round + 1) << round;
        for number in 1..25 {
            assert_eq!(kept.call(&Call::Save(id(number), Box::new([0; 156]))), 0);
        }
        assert_eq!(kept.call(&Call::Save(0, Box::new([0; 156]))), 15);
        for number in 1..25 {
            // In another order: 7 and 25 have no factor in common.
            assert_eq!(kept.call(&Call::Forget(id(number * 7 % 25))), 0);
        }
        assert_eq!(chains_of(&kept.bytes)[16].len(), 24);
    }
}
