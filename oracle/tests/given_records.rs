//! The records that are given, as they are stored: what frames answer on them, and what is left of their words.

use std::collections::BTreeSet;

use oracle::clock::time_of;
use oracle::host_calls;
use oracle::records::{FLAGS, OPTIONS};
use oracle::run_vectors::{answers, fixed_list, on_given_records, Record};
use oracle::words::{from_bytes, in_bytes};

/// A frame or a reset, the refusal, and the words of the record after it.
struct Step {
    record: Record,
    refusal: u32,
    words: Vec<u32>,
}

/// The words of a record that is given, and what is done with it.
struct Play {
    given: Vec<u32>,
    steps: Vec<Step>,
}

impl Play {
    fn remembered(&self) -> f64 {
        f64::from_bits(u64::from(self.given[38]) << 32 | u64::from(self.given[37]))
    }

    fn damaged(&self) -> Vec<usize> {
        let is_damaged = |flag: &usize| self.given[*flag] > 1;
        FLAGS.into_iter().filter(is_damaged).collect()
    }

    /// The flags of the absent options that have words which are not zeros.
    fn littered(&self) -> Vec<usize> {
        let is_littered = |(flag, words): &(usize, usize)| {
            let behind = &self.given[flag + 1..=flag + words];
            self.given[*flag] == 0 && behind.iter().any(|word| *word != 0)
        };
        let options = OPTIONS.into_iter().filter(is_littered);
        options.map(|(flag, _)| flag).collect()
    }

    /// The given words with those of the time cleared.
    fn reset(&self) -> Vec<u32> {
        [&self.given[..37], &[0, 0]].concat()
    }

    /// The three steps of a play around a reset, whose frame is the same twice.
    fn around_a_reset(&self) -> Option<[&Step; 3]> {
        let steps: Vec<&Step> = self.steps.iter().collect();
        let [before, reset, after]: [&Step; 3] = steps.try_into().ok()?;
        assert!(matches!(reset.record, Record::Reset));
        assert_eq!(before.frame(), after.frame());
        Some([before, reset, after])
    }
}

impl Step {
    fn frame(&self) -> &[u8] {
        match &self.record {
            Record::Frame(bytes) => bytes,
            other => panic!("{} for a frame", other.name()),
        }
    }

    fn time(&self) -> f64 {
        time_of(self.frame()).expect("a whole frame")
    }
}

/// The words of a line behind its name and the refusal.
fn words_of(line: &str) -> Vec<u32> {
    let digits = line.trim_end().split(' ').filter(|word| word.len() == 8);
    digits
        .map(|word| u32::from_str_radix(word, 16).expect("a word"))
        .collect()
}

fn plays() -> Vec<Play> {
    let list = on_given_records();
    let mut plays: Vec<Play> = Vec::new();
    for (record, answer) in list.iter().zip(answers(&list)) {
        let words = words_of(&answer.line);
        assert_eq!(words.len(), 39);
        if let Record::Given(bytes) = record {
            assert!(answer.line.starts_with("given ") && words == from_bytes(bytes));
            let (given, steps) = (words, Vec::new());
            plays.push(Play { given, steps });
        } else {
            let (record, refusal) = (record.clone(), answer.refusal);
            let play = plays.last_mut().expect("a record is given first");
            play.steps.push(Step {
                record,
                refusal,
                words,
            });
        }
    }
    plays
}

#[test]
fn the_fixed_list_ends_with_them() {
    let stored = |list: Vec<Record>| -> Vec<Vec<u8>> {
        list.iter().map(|record| record.input_record()).collect()
    };
    assert!(stored(fixed_list()).ends_with(&stored(on_given_records())));
}

#[test]
fn a_time_that_is_not_finite_is_6_until_a_reset() {
    let mut met = BTreeSet::new();
    let plays = plays();
    for play in plays.iter().filter(|play| play.damaged().is_empty()) {
        let Some([before, reset, after]) = play.around_a_reset() else {
            continue;
        };
        let is_finite = play.remembered().is_finite();
        assert_eq!(before.refusal == 6, !is_finite);
        assert_eq!(after.refusal, 0);
        if !is_finite {
            assert_eq!((&before.words, &reset.words), (&play.given, &play.reset()));
            met.insert(play.remembered().to_bits());
        }
    }
    let infinite = [f64::INFINITY, f64::NEG_INFINITY].map(f64::to_bits);
    // A quiet not-a-number, and one that its low word alone tells from infinity.
    let not_numbers = [0x7ff8_0000_0000_0000, 0x7ff0_0000_0000_0001];
    let expected = [infinite, not_numbers].concat();
    assert!(expected.iter().all(|bits| met.contains(bits)), "{met:x?}");
}

/// Finite times whose halves would be other numbers, on each side of the frame's.
#[test]
fn only_the_whole_time_counts() {
    let mut met = [0; 2];
    for play in plays().iter().filter(|play| play.littered().is_empty()) {
        let (true, Some([before, ..])) = (play.damaged().is_empty(), play.around_a_reset()) else {
            continue;
        };
        if play.remembered().is_finite() {
            let is_ahead = before.time() < play.remembered();
            assert_eq!(before.refusal, if is_ahead { 12 } else { 0 });
            met[usize::from(is_ahead)] += 1;
        }
    }
    assert!(met.iter().all(|count| *count >= 2), "{met:?}");
}

/// Frames with each of 1 to 6 on a time whose bits an operation would change.
#[test]
fn a_signalling_time_stays_bit_for_bit() {
    let is_quiet = |play: &Play| play.given[38] & 0x0008_0000 != 0;
    let is_signalling = |play: &&Play| play.remembered().is_nan() && !is_quiet(play);
    let plays = plays();
    let mut met = BTreeSet::new();
    for play in plays.iter().filter(is_signalling) {
        let is_frame = |step: &&Step| matches!(step.record, Record::Frame(_));
        for step in play.steps.iter().take_while(is_frame) {
            assert_eq!(step.words, play.given);
            met.insert((play.given[37], step.refusal));
        }
    }
    let refusals = |low: u32| -> Vec<u32> {
        let of_low = met.iter().filter(|(other, _)| *other == low);
        of_low.map(|(_, refusal)| *refusal).collect()
    };
    assert_eq!(refusals(0x0304_0506), [1, 2, 3, 4, 5, 6]);
    assert_eq!(refusals(1), [6]);
}

/// The frame on the record that was given with its damaged flags 0.
fn mended(play: &Play, frame: &[u8]) -> u32 {
    let mut words = play.given.clone();
    play.damaged().iter().for_each(|flag| words[*flag] = 0);
    let mut record = in_bytes(&words).try_into().expect("39 words");
    host_calls::frame(&mut record, frame, &mut [0; 100])
}

#[test]
fn a_damaged_flag_is_6_before_a_reset_and_after_it() {
    let (mut alone, mut together, mut mended_refusals) = (BTreeSet::new(), 0, Vec::new());
    for play in plays() {
        let damaged = play.damaged();
        if damaged.is_empty() {
            continue;
        }
        let [before, reset, after] = play.around_a_reset().expect("a reset");
        assert_eq!([before.refusal, after.refusal], [6, 6]);
        assert_eq!(before.words, play.given);
        assert_eq!((&reset.words, &after.words), (&play.reset(), &reset.words));
        // What a reset should leave would show if it were cleared: only low words of round times and flags are 0.
        let mut zeros = (0..37).filter(|word| play.given[*word] == 0);
        assert!(zeros.all(|word| [5, 7, 11].contains(&word) || FLAGS.contains(&word)));
        mended_refusals.push(mended(&play, before.frame()));
        together += usize::from(damaged == FLAGS);
        if let [flag] = damaged[..] {
            alone.insert(flag);
        }
    }
    assert_eq!((alone, together), (FLAGS.into(), 1));
    // Nothing else was at fault, the time was before the remembered one too, or that was not finite.
    for (refusal, count) in [(0, 16), (12, 3), (6, 1)] {
        let met = mended_refusals.iter().filter(|other| **other == refusal);
        assert_eq!(met.count(), count, "{refusal}");
    }
}

/// 12 and a reset leave them; after an accepted frame every absent option has zeros.
#[test]
fn words_of_absent_options_stay_until_a_frame_is_accepted() {
    let mut met = BTreeSet::new();
    for play in plays() {
        let littered = play.littered();
        if littered.is_empty() {
            continue;
        }
        let [before, reset, after] = play.around_a_reset().expect("a reset");
        if before.refusal == 12 {
            assert_eq!((&before.words, &reset.words), (&play.given, &play.reset()));
        }
        for step in [before, reset, after]
            .into_iter()
            .filter(|step| step.words[..37] != play.given[..37])
        {
            // The one option that every frame leaves is the rectangle.
            assert_eq!(step.words[30], 1);
            let absent = OPTIONS.into_iter().filter(|(flag, _)| *flag != 30);
            for (flag, words) in absent {
                assert_eq!(step.words[flag..=flag + words], vec![0; words + 1]);
            }
        }
        assert_eq!(after.refusal, 0);
        assert_ne!(after.words[..37], play.given[..37]);
        met.insert((littered, before.refusal));
    }
    let flags = OPTIONS.map(|(flag, _)| flag);
    let mut expected: BTreeSet<(Vec<usize>, u32)> = flags.map(|flag| (vec![flag], 12)).into();
    expected.extend([(flags.to_vec(), 12), (flags.to_vec(), 0)]);
    assert_eq!(met, expected);
}

#[test]
fn a_frame_at_0_is_accepted_on_a_time_below_0() {
    let mut met = BTreeSet::new();
    for play in plays() {
        let [step] = &play.steps[..] else {
            continue;
        };
        let at = step.time();
        assert!(at == 0.0 && play.remembered() <= 0.0);
        assert!(play.remembered().is_sign_negative());
        assert_eq!(step.refusal, 0);
        assert_eq!(step.words[37..], [0, (at.to_bits() >> 32) as u32]);
        met.insert((play.remembered().to_bits(), at.to_bits()));
    }
    for remembered in [-0.0, -f64::from_bits(1), f64::MIN] {
        for at in [0.0f64, -0.0] {
            assert!(met.contains(&(f64::to_bits(remembered), at.to_bits())));
        }
    }
}
