//! Links.
use crate::parts::pbd_cloth::LinkEntry;

/// Which links a link is of: those along rows, columns, ropes and the sides of a mesh's faces (`Stretch`), those across squares
/// (`Shear`), those to the particle after the next and across the sides that two faces of a mesh share (`Bend`), or a link that the
/// scene lists by itself (`Plain`).
#[doc(inline)]
pub use crate::parts::pbd_world::Kind as LinkKind;

/// A link between two particles.
#[derive(Clone, Copy, Debug, PartialEq, Eq)]
pub struct Link {
    /// The number of the particle at one end.
    pub a: usize,
    /// The number of the particle at the other end.
    pub b: usize,
    /// The length that it is drawn to, in units of 1/65,536 metre.
    pub rest_length: i64,
    /// The length above which it tears, in the same units, if there is one.
    pub tear_length: Option<i64>,
    /// How much of its error one projection takes away, in 256ths, at most 256.
    pub stiffness: u16,
    /// What it is in a cloth, a rope or a mesh.
    pub kind: LinkKind,
    /// Whether it is still there, neither cut nor torn.
    pub live: bool,
}

impl From<LinkEntry> for Link {
    fn from(entry: LinkEntry) -> Link {
        Link {
            a: entry.a as usize,
            b: entry.b as usize,
            rest_length: entry.rest,
            tear_length: (entry.tear != 0).then_some(entry.tear),
            stiffness: entry.stiffness,
            kind: match entry.kind {
                0 => LinkKind::Stretch,
                1 => LinkKind::Shear,
                2 => LinkKind::Bend,
                _ => LinkKind::Plain,
            },
            live: entry.live != 0,
        }
    }
}

/// The triangles of a cloth of the scene (a table `[[cloth]]`) whose first particle is number `first`, as numbers of particles: two
/// for each cell of its rows and columns, turned alike. They don't follow links that are cut or torn: a program that draws holes
/// leaves out the triangles along whose sides a link is gone.
///
/// ```
/// use lakmozet::cloth_triangles;
///
/// assert!(cloth_triangles(0, 2, 2).eq([[0, 2, 1], [1, 2, 3]]));
/// ```
pub fn cloth_triangles(first: u32, rows: u32, columns: u32) -> impl Iterator<Item = [u32; 3]> {
    let cells = (1..rows).flat_map(move |row| {
        (1..columns).map(move |column| first + (row - 1) * columns + (column - 1))
    });
    cells.flat_map(move |here| {
        let below = here + columns;
        [[here, below, here + 1], [here + 1, below, below + 1]]
    })
}
