//! A list of events on a panel: rows arrive and the list stays on its last entry. A row that arrives with a touch sample that is
//! not a number is refused with it, and shown once the frame is run again without its input. Then a table for the decay is loaded
//! and serves; somebody flicks the list, which coasts until it rests; the clock is set back; a wheel is turned at the end of a
//! list; and two lists keep their states in one drawer. Words are numbered from 1, as in include/strakobud.h.

struct Frame([u8; 416]);

impl Frame {
    fn word(&mut self, number: usize, word: u32) {
        self.0[4 * number - 4..4 * number].copy_from_slice(&word.to_le_bytes());
    }

    fn number(&mut self, number: usize, x: f32) {
        self.word(number, x.to_bits());
    }

    /// A list 200 by 100 points, vertical only, that sticks to its end and holds content of that height.
    fn of_list(content_height: f32) -> Frame {
        let mut frame = Frame([0; 416]);
        // direction y, auto_shrink x and y, stick_to_end y, floating bars
        for flag in [2, 3, 4, 25, 27] {
            frame.word(flag, 1);
        }
        let numbers = [
            (5, f32::INFINITY), // max_size
            (6, f32::INFINITY),
            (7, 64.0), // min_scrolled_size
            (8, 64.0),
            (37, 1.0),   // decay_time
            (38, 1.0),   // stop_distance
            (42, 200.0), // available rectangle, then clip
            (43, 100.0),
            (46, 200.0),
            (47, 100.0),
            (82, 180.0), // content size
            (83, content_height),
            (88, 1.0), // points per second of the scroll delta
        ];
        for (number, x) in numbers {
            frame.number(number, x);
        }
        frame
    }

    /// Without what a hand or a program asks of the list.
    fn clear_input(&mut self) {
        for number in [
            15, 17, 54, 57, 58, 59, 60, 61, 62, 64, 65, 74, 79, 86, 87, 91, 98,
        ] {
            self.word(number, 0);
        }
    }
}

fn shown_offset(state: &strakobud::StateBytes) -> f32 {
    let mut out = [0; 8];
    assert_eq!(strakobud::offset(state, &mut out), 0, "a damaged state");
    f32::from_le_bytes(out[4..].try_into().expect("four bytes"))
}

fn show(what: &str, refusal: u32, state: &strakobud::StateBytes) {
    let offset = shown_offset(state);
    println!("{what}: refusal {refusal}, shown offset {offset:.1}");
}

fn load(what: &str, shipped: &[u8], table: &mut strakobud::TableBytes) {
    println!("{what}: load {}", strakobud::table_load(shipped, table));
}

/// The list is pulled down by 30 points and let go.
fn flick(state: &mut strakobud::StateBytes, frame: &mut Frame) {
    let mut out = [0; 100];
    frame.word(20, 2); // a drag always scrolls
    frame.word(48, 1); // enabled
    frame.number(51, 1.0 / 60.0); // stable_dt
    frame.word(61, 1); // dragged, by
    frame.number(58, 30.0);
    let refusal = strakobud::frame(state, &frame.0, &mut out);
    show("pulled", refusal, state);
    frame.clear_input();
    frame.word(62, 1); // drag stopped, at points per second of
    frame.number(60, 300.0);
    let refusal = strakobud::frame(state, &frame.0, &mut out);
    show("let go", refusal, state);
    frame.clear_input();
}

/// Frames of a sixtieth of a second until the list rests, at most 10,000; with all of them used it may not rest yet.
fn settle(state: &mut strakobud::StateBytes, frame: &Frame) {
    const LIMIT: u32 = 10_000;
    let (mut run, mut used) = ([0; 12], [0; 4]);
    run[..8].copy_from_slice(&(1.0 / 60.0_f64).to_le_bytes());
    run[8..].copy_from_slice(&LIMIT.to_le_bytes());
    let refusal = strakobud::settle(state, &frame.0, &run, &mut used);
    let used = u32::from_le_bytes(used);
    let rests = if used < LIMIT { " until it rests" } else { "" };
    show(&format!("{used} frames{rests}"), refusal, state);
}

/// The run has moved the time on; the next frame is at 0 again.
fn set_back(state: &mut strakobud::StateBytes, frame: &Frame) {
    let mut out = [0; 100];
    let refusal = strakobud::frame(state, &frame.0, &mut out);
    show("the clock set back", refusal, state);
    strakobud::reset(state);
    let refusal = strakobud::frame(state, &frame.0, &mut out);
    show("after a reset", refusal, state);
}

/// A turn of the wheel at the end of a list that scrolls over 300 points: does the list take it, or what encloses the list?
fn turn(what: &str, delta: f32) {
    let numbers = [(2, 300.0), (3, 100.0), (4, 1.0), (5, 1.0), (7, 300.0), (9, delta)];
    let flags = [(10, 2), (11, 1)]; // of a wheel; something encloses the list
    let words = numbers.map(|(word, number)| (word, number.to_bits()));
    let (mut call, mut out) = ([0; 52], [0; 16]);
    for (word, bits) in words.into_iter().chain(flags) {
        call[4 * word - 4..4 * word].copy_from_slice(&u32::to_le_bytes(bits));
    }
    let refusal = strakobud::wheel(&call, &mut out);
    let answer = if out[12] == 1 { "taken" } else { "left to the parent" };
    println!("a turn {what}: refusal {refusal}, {answer}");
}

const EVENTS: u64 = 1;
const ALARMS: u64 = 2;
const TRENDS: u64 = 3;

/// A frame of the list with that id: its state from the drawer, or the fresh one, which stays where the id is not there.
fn frame_of(drawer: &mut [u8], id: u64, what: &str, content_height: f32) {
    let (mut state, mut out) = ([0; 156], [0; 100]);
    strakobud::fresh(&mut state);
    let load = strakobud::drawer_load(drawer, id, &mut state);
    let refusal = strakobud::frame(&mut state, &Frame::of_list(content_height).0, &mut out);
    let save = strakobud::drawer_save(drawer, id, &state);
    show(&format!("{what} (load {load}, save {save})"), refusal, &state);
}

fn keep_two() {
    // Three records, the first of them the drawer's own, so room for two lists.
    let mut drawer = [0; 3 * strakobud::DRAWER_RECORD_BYTES];
    let (mut before, mut after) = ([0; 156], [0; 156]);
    println!("a drawer: lay {}", strakobud::drawer_lay(&mut drawer));
    frame_of(&mut drawer, EVENTS, "20 events", 400.0);
    frame_of(&mut drawer, ALARMS, "6 alarms", 120.0);
    strakobud::drawer_load(&drawer, ALARMS, &mut before);
    frame_of(&mut drawer, EVENTS, "21 events", 420.0);
    strakobud::drawer_load(&drawer, ALARMS, &mut after);
    let alarms = if before == after { "as they were" } else { "touched" };
    println!("the alarms: {alarms}");
    frame_of(&mut drawer, TRENDS, "a third list", 400.0);
    let forget = strakobud::drawer_forget(&mut drawer, EVENTS);
    let load = strakobud::drawer_load(&drawer, EVENTS, &mut after);
    println!("the events: forget {forget}, load {load}");
}

fn main() {
    let (mut state, mut out) = ([0; 156], [0; 100]);
    strakobud::fresh(&mut state);
    let mut run = |what: &str, frame: &[u8]| {
        let refusal = strakobud::frame(&mut state, frame, &mut out);
        show(what, refusal, &state);
    };
    run("20 rows", &Frame::of_list(400.0).0);
    run("21 rows", &Frame::of_list(420.0).0);
    let mut frame = Frame::of_list(440.0);
    frame.word(61, 1); // dragged, by
    frame.number(58, f32::NAN); // a pointer delta that is not a number
    run("22 rows, a bad sample", &frame.0);
    println!("its bad word: {}", strakobud::bad_word(&frame.0));
    frame.clear_input();
    run("the same without input", &frame.0);
    run("a short frame", &frame.0[..100]);

    // What a maker ships; here the built-in table stands for it.
    let (mut shipped, mut table) = ([0; 8200], [0; 8200]);
    strakobud::table_t(&mut shipped);
    load("a table", &shipped, &mut table);
    let mut frame = Frame::of_list(460.0);
    let refusal = strakobud::frame_by(&mut state, &frame.0, &table, &mut out);
    show("23 rows, by the table", refusal, &state);
    shipped[0] = 1; // its first entry is no longer 2^40
    load("a damaged table", &shipped, &mut table);

    flick(&mut state, &mut frame);
    settle(&mut state, &frame);
    set_back(&mut state, &frame);
    turn("past the end", 8.0);
    turn("back", -8.0);
    keep_two();
}
