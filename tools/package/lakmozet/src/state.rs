//! The world of a cloth as bytes.
use crate::errors::{NoRoom, NoSlot, StateError};
use crate::Cloth;
use alloc::vec;
use alloc::vec::Vec;

/// The world as bytes: saved games, players who join late, and what two machines compare.
///
/// A state has all of a world that commands change, and nothing of the slots. Weights, ends and lengths of links, tracks, shapes
/// and the scene's numbers but gravity aren't in it: it is read into a cloth that was opened on the same scene, on any machine.
/// `docs/FORMATS.md` of the repository has its fields.
impl Cloth {
    /// The name of the scene: the SHA-256 digest of all of it that no command changes. States carry it, and one with another name
    /// is refused.
    #[must_use]
    pub fn scene_name(&self) -> [u8; 32] {
        self.scene
    }

    /// How many bytes a state of the cloth's scene has, at most 3,735,972: the same for all its worlds.
    #[must_use]
    pub fn state_size(&self) -> usize {
        self.playing.state_size()
    }

    /// The state of the world. Takes memory for it; [`Cloth::state_into`] takes none.
    ///
    /// ```
    /// use lakmozet::{Cloth, Scene};
    ///
    /// let scene = Scene::read("gravity = [0, -10, 0]\n[[particle]]\nat = [0, 1000, 0]")?;
    /// let mut cloth = Cloth::open(&scene, 0)?;
    /// cloth.step(3)?;
    /// let saved_game = cloth.state();
    ///
    /// let mut joined = Cloth::open(&scene, 0)?;
    /// joined.restore_state(&saved_game)?;
    /// assert_eq!(joined.digest(), cloth.digest());
    /// assert_eq!(joined.steps(), 3);
    /// # Ok::<(), Box<dyn std::error::Error>>(())
    /// ```
    #[must_use]
    pub fn state(&self) -> Vec<u8> {
        let mut state = vec![0; self.state_size()];
        let written = self.state_into(&mut state);
        debug_assert_eq!(written, Ok(state.len()));
        state
    }

    /// Writes the state of the world at the front of some memory, and answers how many bytes it has.
    ///
    /// # Errors
    ///
    /// There is less room than [`Cloth::state_size`].
    ///
    /// ```
    /// use lakmozet::{Cloth, NoRoom, Scene};
    ///
    /// let cloth = Cloth::open(&Scene::read("[[particle]]\nat = [0, 1000, 0]")?, 0)?;
    /// let mut packet = [0; 512];
    /// let size = cloth.state_into(&mut packet)?;
    /// assert_eq!(packet[..size], cloth.state());
    /// assert_eq!(cloth.state_into(&mut packet[..size - 1]), Err(NoRoom));
    /// # Ok::<(), Box<dyn std::error::Error>>(())
    /// ```
    pub fn state_into(&self, into: &mut [u8]) -> Result<usize, NoRoom> {
        let written = self.playing.write_state(&self.scene, into);
        written.map_err(|_| NoRoom)
    }

    /// Goes over to the world whose state the bytes are: the same commands come to the same from there as where it was written.
    /// No slot changes, and no memory is taken.
    ///
    /// The bytes may come from anybody: what is taken is a sound world of the scene, and its state is those bytes.
    ///
    /// # Errors
    ///
    /// The bytes are no state of the scene, and where they go wrong. Nothing changes then.
    ///
    /// ```
    /// use lakmozet::{Cloth, Scene};
    ///
    /// let mut cloth = Cloth::open(&Scene::read("[[particle]]\nat = [0, 1000, 0]")?, 0)?;
    /// let other = Cloth::open(&Scene::read("[[particle]]\nat = [0, 1000, 0]\nweight = 2")?, 0)?;
    /// let why = cloth.restore_state(b"no state").unwrap_err();
    /// assert_eq!(why.to_string(), "NoState offset 0");
    /// let why = cloth.restore_state(&other.state()).unwrap_err();
    /// assert_eq!(why.offset, 8, "another scene's name");
    /// # Ok::<(), Box<dyn std::error::Error>>(())
    /// ```
    pub fn restore_state(&mut self, state: &[u8]) -> Result<(), StateError> {
        self.playing.read_state(&self.scene, state)?;
        Ok(())
    }

    /// The SHA-256 digest of the state, what two machines compare: equal worlds have equal digests, and worlds of one scene
    /// that differ in anything have different states.
    ///
    /// ```
    /// use lakmozet::{Cloth, Scene};
    ///
    /// let scene = Scene::read("[[particle]]\nat = [0, 0, 0]\n[[particle]]\nat = [9, 0, 0]")?;
    /// let mut here = Cloth::open(&scene, 0)?;
    /// let there = Cloth::open(&scene, 0)?;
    /// assert_eq!(here.digest(), there.digest());
    /// here.pin(0)?;
    /// assert_eq!(here.sums(), there.sums(), "they see no pins");
    /// assert_ne!(here.digest(), there.digest());
    /// # Ok::<(), Box<dyn std::error::Error>>(())
    /// ```
    #[must_use]
    pub fn digest(&self) -> [u8; 32] {
        self.playing.digest(&self.scene)
    }

    /// The same of the world in a slot: of the turn that all machines have confirmed.
    ///
    /// # Errors
    ///
    /// There is no such slot.
    ///
    /// ```
    /// use lakmozet::{Cloth, NoSlot, Scene};
    ///
    /// let mut cloth = Cloth::open(&Scene::read("[[particle]]\nat = [0, 1000, 0]")?, 2)?;
    /// let confirmed = cloth.digest();
    /// cloth.save(1)?;
    /// cloth.step(5)?;
    /// assert_eq!(cloth.digest_slot(1), Ok(confirmed));
    /// assert_eq!(cloth.digest_slot(2), Err(NoSlot));
    /// # Ok::<(), Box<dyn std::error::Error>>(())
    /// ```
    pub fn digest_slot(&self, slot: usize) -> Result<[u8; 32], NoSlot> {
        let slot = self.slot(slot)?;
        Ok(self.playing.digest_slot(&self.scene, slot))
    }

    /// The checksum of the world, which costs a small part of a digest: for each turn. Equal worlds have equal checksums, and where
    /// exactly one number of 64 bits differs, so do they; other worlds may have equal ones, and whoever tries finds such.
    ///
    /// ```
    /// use lakmozet::{Cloth, Scene};
    ///
    /// let scene = Scene::read("[[particle]]\nat = [0, 0, 0]")?;
    /// let mut here = Cloth::open(&scene, 1)?;
    /// assert_eq!(here.checksum(), Cloth::open(&scene, 0)?.checksum());
    /// here.pin(0)?;
    /// assert_ne!(here.checksum(), Cloth::open(&scene, 0)?.checksum());
    /// assert_eq!(here.checksum_slot(0)?, Cloth::open(&scene, 0)?.checksum());
    /// # Ok::<(), Box<dyn std::error::Error>>(())
    /// ```
    #[must_use]
    pub fn checksum(&self) -> u64 {
        self.playing.checksum()
    }

    /// The same of the world in a slot.
    ///
    /// # Errors
    ///
    /// There is no such slot.
    pub fn checksum_slot(&self, slot: usize) -> Result<u64, NoSlot> {
        let slot = self.slot(slot)?;
        Ok(self.playing.checksum_slot(slot))
    }
}
