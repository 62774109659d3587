//! What is compared.

/// A kind of comparison.
#[derive(Clone, Copy)]
pub enum Part {
    Fresh,
    Arbitrary,
    Axis,
    WheelLaw,
    BadWords,
    Resets,
    Loads,
    FreshUnder,
    ArbitraryUnder,
    StepsUnder,
    TLent,
    Runs,
    RunsUnder,
    RunsTLent,
    HonestDrawers,
    WrittenDrawers,
    SmallDrawers,
    LargeDrawers,
    HeldDrawers,
}

impl Part {
    pub const ALL: [Part; 19] = [
        Part::Fresh,
        Part::Arbitrary,
        Part::Axis,
        Part::WheelLaw,
        Part::BadWords,
        Part::Resets,
        Part::Loads,
        Part::FreshUnder,
        Part::ArbitraryUnder,
        Part::StepsUnder,
        Part::TLent,
        Part::Runs,
        Part::RunsUnder,
        Part::RunsTLent,
        Part::HonestDrawers,
        Part::WrittenDrawers,
        Part::SmallDrawers,
        Part::LargeDrawers,
        Part::HeldDrawers,
    ];

    pub fn name(self) -> &'static str {
        match self {
            Part::Fresh => "frames from fresh states",
            Part::Arbitrary => "frames on arbitrary states",
            Part::Axis => "axis calls",
            Part::WheelLaw => {
                "wheel answers of the library, judged by the law of which turns are taken"
            }
            Part::BadWords => "bad words of frames by themselves, and of runs",
            Part::Resets => "resets, among frames and of arbitrary records",
            Part::Loads => "loads of tables",
            Part::FreshUnder => "frames from fresh states, under tables",
            Part::ArbitraryUnder => "frames on arbitrary states, under tables",
            Part::StepsUnder => "steps under tables",
            Part::TLent => "frames and steps, T lent against no table",
            Part::Runs => "runs",
            Part::RunsUnder => "runs under tables",
            Part::RunsTLent => "runs, T lent against no table",
            Part::HonestDrawers => "calls on drawers that nobody else writes",
            Part::WrittenDrawers => "calls on drawers that somebody else writes",
            Part::SmallDrawers => "calls on every drawer of up to four records",
            Part::LargeDrawers => "calls on the largest drawers",
            Part::HeldDrawers => "answers of the library on drawers, judged by what they hold",
        }
    }
}
