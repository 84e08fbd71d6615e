//! What is told of a row of a table that comes to something else than it says.
use std::fmt::Debug;

/// One where a row came to something else than it says, which is told then behind the row and what it says of it, and else
/// nothing.
pub fn wrong_row<R: Debug, T: Debug + PartialEq>(
    (row, what): (&R, &str),
    came_to: &T,
    wanted: &T,
) -> u32 {
    if came_to == wanted {
        return 0;
    }
    eprintln!("{row:?} {what}: {came_to:?}, not {wanted:?}");
    1
}

/// How many rows of a table are wrong.
#[derive(Clone, Copy, Debug)]
pub struct WrongRows(#[allow(dead_code)] u32);

/// Ends the test of a table, of which so many rows are wrong.
pub fn all_hold(wrong: u32) -> Result<(), WrongRows> {
    if wrong == 0 {
        Ok(())
    } else {
        Err(WrongRows(wrong))
    }
}
