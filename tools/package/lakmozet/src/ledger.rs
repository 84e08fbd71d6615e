//! The ledger of momentum.
use crate::parts::pbd_cloth::Balance;

/// What moved the momentum since opening: each is the total of what one cause moved, axis by axis, in units per step.
#[doc(inline)]
pub use crate::parts::pbd_world::Totals;

/// Where momentum came from and went: `momentum` is `opening` and the six totals together, on each axis.
///
/// Momentum is the sum of the velocities of the particles that aren't held, in units of 1/65,536 metre per step.
#[derive(Clone, Copy, Debug, PartialEq, Eq)]
pub struct Ledger {
    /// The momentum as it is now.
    pub momentum: [i128; 3],
    /// The momentum at opening.
    pub opening: [i128; 3],
    /// What moved it since.
    pub totals: Totals,
}

impl From<Balance> for Ledger {
    fn from(balance: Balance) -> Ledger {
        Ledger {
            momentum: balance.momentum,
            opening: balance.opening,
            totals: balance.totals,
        }
    }
}
