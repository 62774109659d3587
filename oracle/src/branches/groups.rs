//! The branches by what can meet them.

use super::list::{Branch, BRANCHES};

/// Those that frames without a table cannot meet.
pub const OF_TABLES: [Branch; 7] = [
    Branch::GivenEntry,
    Branch::GivenSquared,
    Branch::GivenBelow,
    Branch::TableLength,
    Branch::TableFirst,
    Branch::TableOrder,
    Branch::TableLoads,
];

/// Those that frames alone cannot meet: a run's, from the first to the last of them.
pub const OF_RUNS: &[(Branch, &str)] = {
    let (up_to_last, _) = BRANCHES.split_at(Branch::OnlyWord98 as usize + 1);
    up_to_last.split_at(Branch::RunRests as usize).1
};

/// Those of the clock, from the first to the last of them.
pub const OF_CLOCK: &[(Branch, &str)] = {
    let (up_to_last, _) = BRANCHES.split_at(Branch::ResetAboveZero as usize + 1);
    up_to_last.split_at(Branch::ClockBack as usize).1
};

/// Those of them that whole frames without a reset cannot meet, or at their first times alone.
pub const OF_RESETS: &[(Branch, &str)] = {
    let before = Branch::MinusZeroRemembered as usize - Branch::ClockBack as usize;
    OF_CLOCK.split_at(before).1
};

/// Those of who takes a turn of the wheel, from the first to the last of them.
pub const OF_WHEEL: &[(Branch, &str)] = {
    let (up_to_last, _) = BRANCHES.split_at(Branch::TurnNobody as usize + 1);
    up_to_last.split_at(Branch::CallZero as usize).1
};

/// Those of them that wheel calls meet, in the order of the grounds.
pub const OF_WHEEL_CALLS: &[(Branch, &str)] = {
    let calls = Branch::TurnZero as usize - Branch::CallZero as usize;
    OF_WHEEL.split_at(calls).0
};

/// Those of them that frames meet, in the order of the grounds.
pub const OF_TURNS: &[(Branch, &str)] = OF_WHEEL.split_at(OF_WHEEL_CALLS.len()).1;

/// Those that a bad word alone can meet, from the first to the last of them.
pub const OF_BAD_WORDS: &[(Branch, &str)] = {
    let (up_to_last, _) = BRANCHES.split_at(Branch::Lowered5To4 as usize + 1);
    up_to_last.split_at(Branch::Kept2 as usize).1
};

/// Those that calls on a drawer alone can meet, to the end of the list.
pub const OF_DRAWERS: &[(Branch, &str)] = BRANCHES.split_at(Branch::DrawerEmpty as usize).1;
