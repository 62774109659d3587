//! The target that hung, as it is stored: what the host hears, and where the list stands.

use oracle::run_vectors::{answers, hung_target, Record};

/// What a record is answered with: its name, the refusal, the offset down, whether a target is under way, and the remembered time.
struct Line {
    name: &'static str,
    refusal: u32,
    offset: f32,
    has_target: bool,
    time: f64,
}

/// The lines of both plays, each from its fresh state on.
fn plays() -> [Vec<Line>; 2] {
    let list = hung_target();
    let lines = list.iter().zip(answers(&list)).map(|(record, answer)| {
        let words = answer.line.trim_end().split(' ');
        let words: Vec<u32> = words
            .filter(|word| word.len() == 8)
            .map(|word| u32::from_str_radix(word, 16).expect("a word"))
            .collect();
        Line {
            name: record.name(),
            refusal: answer.refusal,
            offset: f32::from_bits(words[1]),
            has_target: words[10] == 1,
            time: f64::from_bits(u64::from(words[38]) << 32 | u64::from(words[37])),
        }
    });
    let mut first: Vec<Line> = lines.collect();
    let is_fresh = |line: &Line| line.name == "fresh";
    let place = first.iter().rposition(is_fresh).expect("a second play");
    let second = first.split_off(place);
    [first, second]
}

#[test]
fn the_host_hears_12_and_the_list_stands_until_the_wheel_turns() {
    let [play, _] = plays();
    let refused: Vec<usize> = (0..play.len())
        .filter(|place| play[*place].refusal != 0)
        .collect();
    let (first, last) = (refused[0], refused[refused.len() - 1]);
    assert_eq!(refused, (first..=last).collect::<Vec<_>>());
    assert!(refused.len() >= 3 && play[first].refusal == 12);
    let before = &play[first - 1];
    assert!(before.has_target && (900.0..1100.0).contains(&before.offset));
    // The reset, the same frame and two more: all that changes is what is remembered.
    assert_eq!(play[last + 1].name, "reset");
    for line in &play[first..=last + 4] {
        assert_eq!((line.offset, line.has_target), (before.offset, true));
    }
    assert_eq!(play[last].time, before.time);
    assert_eq!(play[last + 1].time.to_bits(), 0);
    assert!(play[last + 2..last + 5]
        .iter()
        .all(|line| line.time < 701.0));
    let turned = &play[last + 5];
    assert_eq!(
        (turned.offset, turned.has_target),
        (before.offset + 50.0, false)
    );
    // The next tap arrives by the new clock.
    let end = play.last().expect("a last frame");
    assert!(end.offset == turned.offset + 2000.0 && !end.has_target && end.time < 701.0);
}

#[test]
fn with_a_reset_ahead_of_each_frame_it_stands_until_the_old_time() {
    let [_, play] = plays();
    assert!(play.iter().all(|line| line.refusal == 0));
    assert!(play[1..].chunks(2).all(|pair| pair[0].name == "reset"));
    let frames: Vec<&Line> = play.iter().filter(|line| line.name == "frame").collect();
    let back = |pair: &[&Line]| pair[1].time < pair[0].time;
    let place = frames.windows(2).position(back).expect("a clock set back");
    let stood = frames[place].offset;
    let early = frames[place + 1..]
        .iter()
        .filter(|line| line.time <= 1000.0);
    assert!(early.clone().count() >= 8);
    for line in early {
        assert_eq!((line.offset, line.has_target), (stood, true));
    }
    let end = frames.last().expect("a last frame");
    assert!(end.time > 1000.3 && end.offset == 2000.0 && !end.has_target);
}

/// The frames up to the first reset of the first play are those of the second.
#[test]
fn both_plays_have_the_same_frames() {
    let list = hung_target();
    let frames = |list: &[Record]| -> Vec<Vec<u8>> {
        let frame = |record: &Record| match record {
            Record::Frame(bytes) => Some(bytes.clone()),
            _ => None,
        };
        list.iter().filter_map(frame).collect()
    };
    let is_reset = |record: &Record| matches!(record, Record::Reset);
    let first = list.iter().position(is_reset).expect("a reset");
    let is_fresh = |record: &Record| matches!(record, Record::Fresh);
    let second = list.iter().rposition(is_fresh).expect("a second play");
    let same = frames(&list[..first]);
    assert!(same.len() >= 10 && frames(&list[second..]).starts_with(&same));
}
