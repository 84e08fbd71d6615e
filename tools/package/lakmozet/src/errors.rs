//! Why something can't be done, by the names that the program prints.
use crate::parts::kit::alloc::{AllocError, Global};
use crate::parts::pbd_encoding::StateFault;
use crate::parts::pbd_scene::{KeyName, SceneFault, SceneRule, TableName};
use crate::parts::toml::table_from_str;
use core::error::Error;
use core::fmt;

/// The part of a step in which a place left the range.
///
/// | phase | what moved the place | the element of a refusal |
/// |---|---|---|
/// | `Predict` | its velocity and gravity | a particle |
/// | `Link` | a pass over the links | a link |
/// | `Contact` | a pass over the contacts | a contact, by its position in the list |
/// | `Shape` | a shape | a particle |
#[doc(inline)]
pub use crate::parts::pbd_world::Phase;

/// After a refusal the cloth is exactly what it was.
///
/// | refusal | what it means |
/// |---|---|
/// | `NoParticle`, `NoLink` | none has this number |
/// | `LinkGone` | the link was cut or torn before |
/// | `OutOfRange` | the place or the gravity is outside 2^29 |
/// | `NotHeld`, `Held` | the particle is free, or held already |
/// | `Tracked` | a track leads the particle |
/// | `BadCount` | no steps, or more than 100,000 |
/// | `StepLimit` | the world would come past step 1,000,000 |
/// | `LeavesRange` | in this step, counted from opening, this particle, link or contact of the phase left the range |
/// | `TooManyContacts` | in this step there were more than 262,144 |
/// | `BadCommand` | never comes from the calls of this crate: a line of a script is no command |
#[doc(inline)]
pub use crate::parts::pbd_world::Refusal;

/// Why a text is no scene.
#[derive(Clone, Copy, Debug, PartialEq, Eq)]
#[non_exhaustive]
pub enum SceneError {
    /// The text is no TOML, or deeper or longer than is read.
    #[non_exhaustive]
    NotToml {
        /// Where its reader stopped: how many bytes stand before that.
        offset: usize,
    },
    /// The scene breaks a rule; this is the first that it breaks.
    #[non_exhaustive]
    Refused {
        /// Which rule.
        rule: SceneRule,
        /// The array of tables in which it is broken, or the scene itself.
        table: TableName,
        /// Which table of the array, from 0.
        position: u32,
        /// The key, or none.
        key: KeyName,
    },
    /// There was no memory.
    OutOfMemory,
}

impl SceneError {
    /// Why a text is no scene. Where it is no TOML it is read again, since only its reader tells where.
    pub(crate) fn of(fault: SceneFault, text: &str) -> SceneError {
        match fault {
            SceneFault::NotToml => match table_from_str(Global, text)
                .err()
                .and_then(|why| why.span())
            {
                Some(span) => SceneError::NotToml { offset: span.start },
                None => SceneError::OutOfMemory,
            },
            SceneFault::Refused {
                rule,
                table,
                position,
                key,
            } => SceneError::Refused {
                rule,
                table,
                position,
                key,
            },
            SceneFault::OutOfMemory => SceneError::OutOfMemory,
        }
    }
}

impl fmt::Display for SceneError {
    fn fmt(&self, f: &mut fmt::Formatter<'_>) -> fmt::Result {
        match self {
            SceneError::NotToml { offset } => write!(f, "SceneNotToml offset {offset}"),
            SceneError::Refused {
                rule,
                table,
                position,
                key,
            } => {
                let number = rule.number();
                write!(f, "SceneRefused {number} {rule} {table} {position} {key}")
            }
            SceneError::OutOfMemory => f.write_str("OutOfMemory"),
        }
    }
}

impl Error for SceneError {}

/// Why a cloth can't be opened.
#[derive(Clone, Copy, Debug, PartialEq, Eq)]
#[non_exhaustive]
pub enum OpenError {
    /// More than 16 slots were asked for.
    TooManySlots,
    /// There was no memory.
    OutOfMemory,
}

impl From<AllocError> for OpenError {
    fn from(AllocError: AllocError) -> OpenError {
        OpenError::OutOfMemory
    }
}

impl fmt::Display for OpenError {
    fn fmt(&self, f: &mut fmt::Formatter<'_>) -> fmt::Result {
        f.write_str(match self {
            OpenError::TooManySlots => "TooManySlots",
            OpenError::OutOfMemory => "OutOfMemory",
        })
    }
}

impl Error for OpenError {}

/// There is no slot of this number; nothing was done.
#[derive(Clone, Copy, Debug, PartialEq, Eq)]
pub struct NoSlot;

impl fmt::Display for NoSlot {
    fn fmt(&self, f: &mut fmt::Formatter<'_>) -> fmt::Result {
        f.write_str("NoSlot")
    }
}

impl Error for NoSlot {}

/// There is less room than a state needs, as [`Cloth::state_size`](crate::Cloth::state_size) tells it; nothing was written.
#[derive(Clone, Copy, Debug, PartialEq, Eq)]
pub struct NoRoom;

impl fmt::Display for NoRoom {
    fn fmt(&self, f: &mut fmt::Formatter<'_>) -> fmt::Result {
        f.write_str("NoRoom")
    }
}

impl Error for NoRoom {}

/// The bytes are no state of a sound world of the scene; nothing was changed.
#[derive(Clone, Copy, Debug, PartialEq, Eq)]
#[non_exhaustive]
pub struct StateError {
    /// How many bytes stand before the one that can't stand there, before the end where bytes are missing, or before the field that
    /// is unsound.
    pub offset: u64,
}

impl From<StateFault> for StateError {
    fn from(StateFault { offset }: StateFault) -> StateError {
        StateError { offset }
    }
}

impl fmt::Display for StateError {
    fn fmt(&self, f: &mut fmt::Formatter<'_>) -> fmt::Result {
        write!(f, "NoState offset {}", self.offset)
    }
}

impl Error for StateError {}

impl fmt::Display for Phase {
    fn fmt(&self, f: &mut fmt::Formatter<'_>) -> fmt::Result {
        f.write_str(match self {
            Phase::Predict => "predict",
            Phase::Link => "link",
            Phase::Contact => "contact",
            Phase::Shape => "shape",
        })
    }
}

impl fmt::Display for Refusal {
    fn fmt(&self, f: &mut fmt::Formatter<'_>) -> fmt::Result {
        match self {
            Refusal::LeavesRange {
                step,
                phase,
                element,
            } => {
                write!(f, "LeavesRange step {step} phase {phase} element {element}")
            }
            Refusal::TooManyContacts { step } => write!(f, "TooManyContacts step {step}"),
            // the names of the others are those that the program prints
            other => write!(f, "{other:?}"),
        }
    }
}

impl Error for Refusal {}
