//! Where particles are.
use crate::parts::pbd_num::Vec3;

/// How many units a metre has.
pub const UNITS_PER_METRE: i64 = 65_536;

/// Where a particle is, or may be put: within 2^29 = 536,870,912 on each axis, 8,192 metres. A call refuses one beyond that.
///
/// ```
/// use lakmozet::Position;
///
/// let at = Position::from([65_536, -32_768, 0]);
/// assert_eq!(at.to_metres(), [1.0, -0.5, 0.0]);
/// ```
#[doc(inline)]
pub use crate::parts::pbd_cloth::Place as Position;

impl Position {
    /// In metres, to draw it. Nothing that is played may depend on these, since other machines may round them otherwise.
    #[must_use]
    pub fn to_metres(self) -> [f32; 3] {
        [self.x, self.y, self.z].map(|units| units as f32 / UNITS_PER_METRE as f32)
    }

    pub(crate) fn vector(self) -> Vec3 {
        let Position { x, y, z } = self;
        Vec3 { x, y, z }
    }
}

impl From<[i64; 3]> for Position {
    fn from([x, y, z]: [i64; 3]) -> Position {
        Position { x, y, z }
    }
}

impl From<Position> for [i64; 3] {
    fn from(position: Position) -> [i64; 3] {
        [position.x, position.y, position.z]
    }
}
