//! A cloth that plays.
use crate::errors::{NoSlot, OpenError, Refusal};
use crate::ledger::Ledger;
use crate::links::Link;
use crate::parts::kit::alloc::Global;
use crate::parts::pbd_cloth::LinkEntry;
use crate::parts::pbd_num::Vec3;
use crate::parts::{pbd_cloth, pbd_world};
use crate::position::Position;
use crate::scene::Scene;
use crate::{Sums, MOST_SLOTS};
use alloc::vec;
use core::fmt;
use pbd_world::{Command, Reply};

/// The world of a scene, which commands and steps change, and slots that each keep a whole world of it.
///
/// Equal scenes and equal commands give equal worlds, to the bit, on every machine. A refused command changes nothing. Only
/// opening takes memory, and those calls that say so.
///
/// ```
/// use lakmozet::{Cloth, Refusal, Scene};
///
/// let scene = Scene::read("gravity = [0, -10, 0]\n[[particle]]\nat = [0, 1000, 0]")?;
/// let mut cloth = Cloth::open(&scene, 0)?;
/// cloth.step(3)?;
/// assert_eq!(cloth.positions().next(), Some([0, 940, 0].into()));
/// assert_eq!(cloth.pin(1), Err(Refusal::NoParticle));
/// # Ok::<(), Box<dyn std::error::Error>>(())
/// ```
pub struct Cloth {
    pub(crate) playing: pbd_cloth::Cloth,
    pub(crate) scene: [u8; 32],
}

impl Cloth {
    /// Opens the world of a scene before its first command, with up to 16 slots, each of which has that world too.
    ///
    /// # Errors
    ///
    /// There were more than 16 slots, or no memory.
    pub fn open(scene: &Scene, slots: usize) -> Result<Cloth, OpenError> {
        if slots > MOST_SLOTS {
            return Err(OpenError::TooManySlots);
        }
        let playing = pbd_cloth::Cloth::open(Global, &scene.parts, slots as u32)?;
        let scene = playing.scene_name();
        Ok(Cloth { playing, scene })
    }

    fn apply(&mut self, command: Command) -> Result<(), Refusal> {
        match self.playing.apply(&command) {
            Reply::Refused(why) => Err(why),
            _ => Ok(()),
        }
    }

    /// Takes n steps, 1 to 100,000, or none at all.
    ///
    /// # Errors
    ///
    /// `BadCount`, `StepLimit`, `LeavesRange` or `TooManyContacts`.
    pub fn step(&mut self, n: u64) -> Result<(), Refusal> {
        self.apply(Command::Step(n))
    }

    /// Holds a particle where it is.
    ///
    /// # Errors
    ///
    /// `NoParticle` or `Held`.
    pub fn pin(&mut self, particle: usize) -> Result<(), Refusal> {
        self.apply(Command::Pin(particle as u64))
    }

    /// Frees a particle, at rest.
    ///
    /// # Errors
    ///
    /// `NoParticle`, `NotHeld` or `Tracked`.
    pub fn unpin(&mut self, particle: usize) -> Result<(), Refusal> {
        self.apply(Command::Unpin(particle as u64))
    }

    /// Puts a held particle at a place, in units of 1/65,536 metre.
    ///
    /// # Errors
    ///
    /// `NoParticle`, `OutOfRange`, `NotHeld` or `Tracked`.
    ///
    /// ```
    /// use lakmozet::{Cloth, Refusal, Scene};
    ///
    /// let mut cloth = Cloth::open(&Scene::read("[[particle]]\nat = [0, 0, 0]")?, 0)?;
    /// assert_eq!(cloth.move_to(0, [5, 0, 0]), Err(Refusal::NotHeld));
    /// cloth.pin(0)?;
    /// cloth.move_to(0, [5, 0, 0])?;
    /// # Ok::<(), Box<dyn std::error::Error>>(())
    /// ```
    pub fn move_to(&mut self, particle: usize, to: impl Into<Position>) -> Result<(), Refusal> {
        self.apply(Command::Move {
            particle: particle as u64,
            to: to.into().vector(),
        })
    }

    /// Lets a link go.
    ///
    /// # Errors
    ///
    /// `NoLink` or `LinkGone`.
    pub fn cut(&mut self, link: usize) -> Result<(), Refusal> {
        self.apply(Command::Cut(link as u64))
    }

    /// Lets links go, one after another, each as [`Cloth::cut`] does, and answers how many of these cuts were refused: they change
    /// nothing.
    ///
    /// ```
    /// use lakmozet::{Cloth, Scene};
    ///
    /// let rope = "[[rope]]\norigin = [0, 0, 0]\nspacing = [6554, 0, 0]\ncount = 3";
    /// let mut cloth = Cloth::open(&Scene::read(rope)?, 0)?;
    /// assert_eq!(cloth.cut_many(&[0, 1, 0, 99]), 2);
    /// assert!(cloth.links().take(2).all(|link| !link.live));
    /// # Ok::<(), Box<dyn std::error::Error>>(())
    /// ```
    pub fn cut_many(&mut self, links: &[usize]) -> usize {
        let refused = links.iter().filter(|&&link| self.cut(link).is_err());
        refused.count()
    }

    /// Sets gravity, in units per step squared, within 2^29 on each axis.
    ///
    /// # Errors
    ///
    /// `OutOfRange`.
    pub fn set_gravity(&mut self, gravity: [i64; 3]) -> Result<(), Refusal> {
        self.apply(Command::Gravity(Position::from(gravity).vector()))
    }

    /// Gravity, in units of 1/65,536 metre per step squared.
    ///
    /// ```
    /// use lakmozet::{Cloth, Scene};
    ///
    /// let mut cloth = Cloth::open(&Scene::read("gravity = [0, -179, 0]")?, 0)?;
    /// assert_eq!(cloth.gravity(), [0, -179, 0]);
    /// cloth.set_gravity([30, -176, 0])?;
    /// assert_eq!(cloth.gravity(), [30, -176, 0]);
    /// # Ok::<(), Box<dyn std::error::Error>>(())
    /// ```
    #[must_use]
    pub fn gravity(&self) -> [i64; 3] {
        let Vec3 { x, y, z } = self.playing.gravity();
        [x, y, z]
    }

    /// Keeps the whole world in a slot, from 0. No other slot changes.
    ///
    /// # Errors
    ///
    /// There is no such slot.
    pub fn save(&mut self, slot: usize) -> Result<(), NoSlot> {
        let slot = self.slot(slot)?;
        self.playing.save(slot);
        Ok(())
    }

    /// Goes back to the world in a slot: the same commands come to the same from there as after it was saved. No slot changes.
    ///
    /// # Errors
    ///
    /// There is no such slot.
    pub fn restore(&mut self, slot: usize) -> Result<(), NoSlot> {
        let slot = self.slot(slot)?;
        self.playing.restore(slot);
        Ok(())
    }

    pub(crate) fn slot(&self, slot: usize) -> Result<u32, NoSlot> {
        if slot < self.slots() {
            Ok(slot as u32)
        } else {
            Err(NoSlot)
        }
    }

    /// How many slots there are.
    #[must_use]
    pub fn slots(&self) -> usize {
        self.playing.slots() as usize
    }

    /// How many particles there are, at most 65,536.
    #[must_use]
    pub fn particles(&self) -> usize {
        self.playing.particles() as usize
    }

    /// How many steps were taken, at most 1,000,000.
    #[must_use]
    pub fn steps(&self) -> u64 {
        self.playing.step_count()
    }

    /// How many contacts the last step found, at most 262,144.
    #[must_use]
    pub fn contacts(&self) -> usize {
        self.playing.contacts() as usize
    }

    /// Where all particles are, in the order of their numbers. Takes memory for them; [`Cloth::positions_into`] takes none.
    pub fn positions(&self) -> impl ExactSizeIterator<Item = Position> {
        let mut positions = vec![Position::from([0; 3]); self.particles()];
        self.positions_into(&mut positions);
        positions.into_iter()
    }

    /// Copies the positions of as many particles as there is room for, from particle 0 on, and answers how many these are.
    pub fn positions_into(&self, into: &mut [Position]) -> usize {
        self.playing.places(into);
        into.len().min(self.particles())
    }

    /// The same one step before, as friction and commands left them: the difference is a particle's velocity.
    pub fn positions_before_into(&self, into: &mut [Position]) -> usize {
        self.playing.places_before(into);
        into.len().min(self.particles())
    }

    /// Whether each particle is held, in the order of their numbers. Takes memory for a byte each.
    ///
    /// ```
    /// use lakmozet::{Cloth, Scene};
    ///
    /// let rope = "pins = [0]\n[[rope]]\norigin = [0, 0, 0]\nspacing = [6554, 0, 0]\ncount = 3";
    /// let mut cloth = Cloth::open(&Scene::read(rope)?, 0)?;
    /// cloth.pin(2)?;
    /// assert_eq!(cloth.held().collect::<Vec<_>>(), [true, false, true]);
    /// # Ok::<(), Box<dyn std::error::Error>>(())
    /// ```
    pub fn held(&self) -> impl ExactSizeIterator<Item = bool> {
        let mut held = vec![0; self.particles()];
        self.playing.held(&mut held);
        held.into_iter().map(|it| it != 0)
    }

    /// Writes a 1 for each held particle and a 0 for each other, for as many as there is room for, and answers how many these are.
    pub fn held_into(&self, into: &mut [u8]) -> usize {
        self.playing.held(into);
        into.len().min(self.particles())
    }

    /// All links, live ones and others, in the order of their numbers. Takes memory for them.
    ///
    /// ```
    /// use lakmozet::{Cloth, Scene};
    ///
    /// let rope = "[[rope]]\norigin = [0, 0, 0]\nspacing = [6554, 0, 0]\ncount = 3";
    /// let cloth = Cloth::open(&Scene::read(rope)?, 0)?;
    /// let link = cloth.links().nth(1).unwrap();
    /// assert_eq!((link.a, link.b, link.rest_length, link.live), (1, 2, 6554, true));
    /// # Ok::<(), Box<dyn std::error::Error>>(())
    /// ```
    pub fn links(&self) -> impl ExactSizeIterator<Item = Link> {
        let mut entries = vec![NO_LINK; self.link_count()];
        self.playing.link_entries(&mut entries);
        entries.into_iter().map(Link::from)
    }

    /// How many links there are, live ones and others, at most 524,288.
    #[must_use]
    pub fn link_count(&self) -> usize {
        self.playing.links() as usize
    }

    /// How many links are live, neither cut nor torn.
    #[must_use]
    pub fn live_links(&self) -> usize {
        self.playing.live_links() as usize
    }

    /// Writes a 1 for each live link and a 0 for each other, for as many as there is room for, and answers how many these are.
    /// Nothing else of a link ever changes.
    ///
    /// ```
    /// use lakmozet::{Cloth, Scene};
    ///
    /// let rope = "[[rope]]\norigin = [0, 0, 0]\nspacing = [6554, 0, 0]\ncount = 3";
    /// let mut cloth = Cloth::open(&Scene::read(rope)?, 0)?;
    /// cloth.cut(1)?;
    /// let mut live = [7; 5];
    /// assert_eq!(cloth.live_into(&mut live), 3);
    /// assert_eq!(live, [1, 0, 1, 7, 7]);
    /// assert_eq!((cloth.live_links(), cloth.link_count()), (2, 3));
    /// # Ok::<(), Box<dyn std::error::Error>>(())
    /// ```
    pub fn live_into(&self, into: &mut [u8]) -> usize {
        self.playing.live(into);
        into.len().min(self.link_count())
    }

    /// The number of the link that joins two particles, in either order, live or not: there is one at most.
    ///
    /// ```
    /// use lakmozet::{Cloth, Scene};
    ///
    /// let rope = "[[rope]]\norigin = [0, 0, 0]\nspacing = [6554, 0, 0]\ncount = 3";
    /// let mut cloth = Cloth::open(&Scene::read(rope)?, 0)?;
    /// assert_eq!(cloth.link_between(2, 1), Some(1));
    /// assert_eq!(cloth.link_between(2, 2), None);
    /// # Ok::<(), Box<dyn std::error::Error>>(())
    /// ```
    #[must_use]
    pub fn link_between(&self, a: usize, b: usize) -> Option<usize> {
        let (a, b) = (u32::try_from(a).ok()?, u32::try_from(b).ok()?);
        self.playing.link_between(a, b).map(|link| link as usize)
    }

    /// The numbers, ascending, of the links that are live in a slot's world and are so no longer. Takes memory for them.
    ///
    /// # Errors
    ///
    /// There is no such slot.
    pub fn gone_since(&self, slot: usize) -> Result<impl ExactSizeIterator<Item = usize>, NoSlot> {
        let slot = self.slot(slot)?;
        let mut gone = vec![0; self.playing.gone_since(slot, &mut []) as usize];
        self.playing.gone_since(slot, &mut gone);
        Ok(gone.into_iter().map(|link| link as usize))
    }

    /// Where momentum came from and went since opening, in units of 1/65,536 metre per step.
    ///
    /// ```
    /// use lakmozet::{Cloth, Scene};
    ///
    /// let scene = "gravity = [0, -10, 0]\n[[particle]]\nat = [0, 1000, 0]";
    /// let mut cloth = Cloth::open(&Scene::read(scene)?, 0)?;
    /// cloth.step(3)?;
    /// let ledger = cloth.ledger();
    /// assert_eq!(ledger.momentum, [0, -30, 0]);
    /// assert_eq!(ledger.totals.gravity, ledger.momentum);
    /// # Ok::<(), Box<dyn std::error::Error>>(())
    /// ```
    #[must_use]
    pub fn ledger(&self) -> Ledger {
        self.playing.balance().into()
    }

    /// What a log keeps of the world: counts, and the sums of all positions. Equal worlds have equal sums; [`Cloth::digest`] sees
    /// all of a world, and is what two machines should compare.
    #[must_use]
    pub fn sums(&self) -> Sums {
        self.playing.sums()
    }
}

impl fmt::Debug for Cloth {
    fn fmt(&self, f: &mut fmt::Formatter<'_>) -> fmt::Result {
        f.debug_struct("Cloth")
            .field("steps", &self.steps())
            .field("particles", &self.particles())
            .field("links", &self.link_count())
            .field("slots", &self.slots())
            .finish_non_exhaustive()
    }
}

/// What stands in a list before it is written.
const NO_LINK: LinkEntry = LinkEntry {
    rest: 0,
    tear: 0,
    a: 0,
    b: 0,
    stiffness: 0,
    kind: 0,
    live: 0,
};
