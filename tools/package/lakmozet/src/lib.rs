//! Cloth and ropes for games that have to be the same everywhere: the same scene and the same inputs give the same bits, in
//! every run, on every machine. All numbers of a world are whole numbers, and there is no floating point in a step.
//!
//! ```
//! use lakmozet::{Cloth, Scene};
//!
//! let scene = Scene::read(
//!     "gravity = [0, -179, 0]        # about 9.81 m/s² at 60 steps a second
//!      passes = 8
//!      pins = [0]                    # particle 0 stays where it is
//!      [[rope]]
//!      origin = [0, 131072, 0]       # two metres up
//!      spacing = [6554, 0, 0]        # each next one ten centimetres to the right
//!      count = 4",
//! )?;
//! let mut cloth = Cloth::open(&scene, 8)?; // with 8 slots for rollback
//!
//! cloth.step(60)?;
//! cloth.save(0)?;
//! cloth.cut(0)?; // the link between the first two particles
//! cloth.step(30)?;
//! let fallen: Vec<[i64; 3]> = cloth.positions().map(Into::into).collect();
//! assert_eq!(fallen[3], [-1248, 122413, 0]);
//!
//! cloth.restore(0)?; // the cut is taken back, to the bit
//! let hanging: Vec<[i64; 3]> = cloth.positions().map(Into::into).collect();
//! assert_eq!(hanging[3], [13127, 116473, 0]);
//! # Ok::<(), Box<dyn std::error::Error>>(())
//! ```
//!
//! Lengths are in units of 1/65,536 metre ([`UNITS_PER_METRE`]); velocities are per step, and gravity is per step squared. There
//! is no time step: at 60 steps a second, 9.81 m/s² is about 179. `docs/SCENES.md` and `docs/FORMATS.md` of the repository say how to
//! make a scene, and have every key of one.
//!
//! # What is proved
//!
//! The sources that this package was made of carry contracts, and a prover checked every function against its own, for a `usize`
//! of 64 bits. A tool took the contracts off, and what stands here is plain Rust; nothing here is proved again. That it writes the
//! same bytes is tested. [`SOURCE`] says which sources these are.
//!
//! # What two machines agree on
//!
//! [`Cloth::digest`] is the SHA-256 of a world's [state](Cloth::state), and sees all of it. A machine that joins late, or goes on from
//! a saved game, opens the scene and [reads the state](Cloth::restore_state): from then on it has that world, to the bit.
//!
//! # Features
//!
//! `std`, on by default, has the program and `run_streams`. Without it the crate needs `alloc` alone.
#![no_std]
#![forbid(unsafe_code)]
#![warn(missing_docs)]

extern crate alloc;
#[cfg(feature = "std")]
extern crate std;

mod cloth;
mod errors;
mod ledger;
mod links;
mod mesh;
#[doc(hidden)]
#[allow(missing_docs)]
pub mod parts;
mod position;
mod run;
mod scene;
mod source;
mod state;

pub use cloth::Cloth;
pub use errors::{NoRoom, NoSlot, OpenError, Phase, Refusal, SceneError, StateError};
pub use ledger::{Ledger, Totals};
pub use links::{cloth_triangles, Link, LinkKind};
pub use mesh::{LinkSettings, Mesh, MeshError, MeshSettings};
pub use position::{Position, UNITS_PER_METRE};
#[cfg(feature = "std")]
pub use run::run_streams;
pub use run::{run, Status};
pub use scene::{KeyName, Scene, SceneRule, TableName};
pub use source::SOURCE;

/// The version of this package.
pub const VERSION: &str = env!("CARGO_PKG_VERSION");

/// The most slots that a [`Cloth`] can have.
pub const MOST_SLOTS: usize = parts::pbd_cloth::MOST_SLOTS as usize;

/// Counts and sums of a world, which logs keep: equal worlds have equal sums. They don't see all; a [digest](Cloth::digest) does.
///
/// `steps` were taken so far, at most 1,000,000; `live` links are there, and the last step found so many `contacts`. `at` and
/// `before` are the sums of all positions, now and one step before as friction and commands left those, axis by axis.
#[doc(inline)]
pub use parts::pbd_world::FrameSums as Sums;
