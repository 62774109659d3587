//! Frames for the sweep over checks 2 to 5, one after another: those of `frame_vectors`, and bad words in every order.

use std::collections::HashSet;

use crate::frame_checks::LENGTH;
use crate::frame_vectors::random_words::mutated;
use crate::frame_vectors::{self, full, good_frame, Frame};
use crate::random::Random;
use crate::words::{INF, NAN};

/// Four stretches of the full frame, one after another; in each, for checks 2 to 5 in turn, a word and the bits that make it bad.
const STRETCHES: [[(usize, u32); 4]; 4] = [
    [(9, 3), (16, INF.to_bits()), (13, 4.0f32.to_bits()), (37, 0)],
    [
        (39, 2),
        (47, NAN.to_bits()),
        (43, 19.0f32.to_bits()),
        (38, (-1.0f32).to_bits()),
    ],
    [
        (63, 5),
        (53, 0x7ff8_0000),
        (83, (-1.0f32).to_bits()),
        (88, 0),
    ],
    [
        (101, 4),
        (96, INF.to_bits()),
        (100, (-46.0f32).to_bits()),
        (102, 0),
    ],
];

/// The fixed frames, each once; the last one is cut short, since only a last part can be.
pub fn fixed_list() -> Vec<Vec<u8>> {
    let calls = frame_vectors::fixed_list();
    let frames = calls.iter().map(|call| call.frame().to_vec());
    let whole = frames.filter(|frame| frame.len() == LENGTH);
    let ordered = orders().into_iter().map(|order| slipped(&order).bytes());
    let mut known = HashSet::new();
    let all = whole.chain(ordered);
    let mut list: Vec<Vec<u8>> = all.filter(|frame| known.insert(frame.clone())).collect();
    list.push(full().bytes()[..LENGTH - 1].to_vec());
    list
}

/// Every order of two, three or all of the checks 2 to 5, which are numbered from 0 here.
fn orders() -> Vec<Vec<usize>> {
    let one: Vec<Vec<usize>> = (0..4).map(|check| vec![check]).collect();
    let two = longer(&one);
    let three = longer(&two);
    let four = longer(&three);
    [two, three, four].concat()
}

/// Each order with each of the checks that it has not at its end.
fn longer(orders: &[Vec<usize>]) -> Vec<Vec<usize>> {
    let pairs = (orders.iter()).flat_map(|order| (0..4).map(move |check| (order, check)));
    let new = pairs.filter(|(order, check)| !order.contains(check));
    new.map(|(order, check)| [&order[..], &[check]].concat())
        .collect()
}

/// The full frame with a bad word for each check of the order, each in a stretch of its own.
fn slipped(order: &[usize]) -> Frame {
    let slips = STRETCHES.iter().zip(order);
    slips.fold(full(), |frame, (stretch, check)| {
        let (word, bits) = stretch[*check];
        frame.with(word, bits)
    })
}

/// That many pseudo-random frames; the last one is cut short.
pub fn random_list(seed: u64, count: usize) -> Vec<Vec<u8>> {
    let mut random = Random::new(seed);
    let mut list: Vec<Vec<u8>> = (0..count).map(|_| random_frame(&mut random)).collect();
    if let Some(last) = list.last_mut() {
        last.truncate(1 + random.below(LENGTH - 1));
    }
    list
}

/// A good frame with up to eight words or pairs replaced, or with any bytes from some place on.
fn random_frame(random: &mut Random) -> Vec<u8> {
    let good = good_frame(random);
    if random.below(4) == 0 {
        let mut bytes = good.bytes();
        let place = random.below(LENGTH);
        bytes[place..].fill_with(|| random.word() as u8);
        return bytes;
    }
    let mutations = random.below(9);
    let frame = (0..mutations).fold(good, |frame, _| mutated(random, frame));
    frame.bytes()
}
