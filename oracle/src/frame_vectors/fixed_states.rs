//! Check 6: every number of a state, behind a good frame.

use super::good::{bare, full};
use super::states::{doubles, flags, singles, stored, with_only};
use super::{Call, List};
use crate::frame_state::State;
use crate::words::{INF, LARGEST, NAN, SMALLEST};

impl List {
    /// Adds a call of a good frame with that state.
    fn state(&mut self, state: State) {
        self.call(Call::new(full().bytes(), state));
    }
}

/// Not finite, and as large as can be.
const SINGLES: [f32; 5] = [NAN, INF, -INF, LARGEST, -LARGEST];

/// The same, and numbers that change sides where a half is taken for a binary32 number.
pub const DOUBLES: [u64; 10] = [
    0x7ff8_0000_0000_0000,
    0x7ff0_0000_0000_0000,
    0xfff0_0000_0000_0000,
    0x7fef_ffff_ffff_ffff,
    0xffef_ffff_ffff_ffff,
    0x7ff0_0000_0000_0001,
    0x7f80_0000_0000_0000,
    0x4028_0000_7fc0_0000,
    0x0000_0000_7ff0_0000,
    0xfff0_0000_8000_0000,
];

/// Good states: the fresh one, a stored one, and each flag of the latter turned.
pub fn good_states(list: &mut List) {
    for state in [State::default(), stored()] {
        list.call(Call::new(bare().bytes(), state));
        list.state(state);
    }
    for place in 0..flags(&mut stored()).len() {
        let mut turned = stored();
        let flag = &mut flags(&mut turned)[place];
        **flag = !**flag;
        list.state(turned);
    }
}

/// The state with its binary32 numbers from that place on replaced in turn.
fn replace_singles(list: &mut List, mut state: State, first: usize, numbers: &[f32]) {
    for place in first..singles(&mut state).len() {
        for x in numbers {
            let mut spoiled = state;
            *singles(&mut spoiled)[place] = *x;
            list.state(spoiled);
        }
    }
}

/// The state with its binary64 numbers replaced in turn.
fn replace_doubles(list: &mut List, mut state: State, numbers: &[u64]) {
    for place in 0..doubles(&mut state).len() {
        for bits in numbers {
            let mut spoiled = state;
            *doubles(&mut spoiled)[place] = f64::from_bits(*bits);
            list.state(spoiled);
        }
    }
}

pub fn each_number(list: &mut List) {
    replace_singles(list, stored(), 0, &SINGLES);
    replace_doubles(list, stored(), &DOUBLES);
}

/// What an absent option leaves out does not hide the numbers of the others.
pub fn one_option_only(list: &mut List) {
    let mut fresh = State::default();
    replace_singles(list, fresh, 0, &[NAN]);
    // Only the option's own numbers: those before them are the fresh state's.
    let own = singles(&mut fresh).len();
    for option in 0..5 {
        let state = with_only(option);
        list.state(state);
        replace_singles(list, state, own, &[NAN]);
        replace_doubles(list, state, &DOUBLES[..1]);
    }
}

/// The same number at every place: only finiteness counts, not size.
pub fn everywhere(list: &mut List) {
    for x in [NAN, INF, LARGEST, -LARGEST, -0.0, SMALLEST] {
        let mut state = stored();
        singles(&mut state).into_iter().for_each(|y| *y = x);
        list.state(state);
        let long = match x {
            LARGEST => f64::MAX,
            SMALLEST => f64::from_bits(1),
            _ => x.into(),
        };
        doubles(&mut state).into_iter().for_each(|y| *y = long);
        list.state(state);
    }
}

/// A span and a rectangle whose end is below their start: no order is asked of a state.
pub fn reversed(list: &mut List) {
    let mut state = stored();
    for target in state.offset_target.iter_mut().flatten() {
        let (start, end) = target.animation_time_span;
        target.animation_time_span = (end, start);
    }
    list.state(state);
    for rectangle in state.interact_rect.iter_mut() {
        std::mem::swap(&mut rectangle.min, &mut rectangle.max);
    }
    list.state(state);
}
