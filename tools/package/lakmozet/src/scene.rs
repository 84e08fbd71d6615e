//! Scenes.
use crate::errors::SceneError;
use crate::parts::kit::alloc::Global;
use crate::parts::{pbd_num, pbd_scene, pbd_world};
use core::fmt;
use core::str::FromStr;

#[doc(inline)]
pub use crate::parts::pbd_scene::{KeyName, SceneRule, TableName};

/// A scene that was read and keeps all rules: particles, links, shapes and tracks, and what pulls at them.
///
/// It is read once, and as many cloths as one likes are opened on it.
pub struct Scene {
    pub(crate) parts: pbd_world::Scene,
}

impl Scene {
    /// Reads the TOML text of a scene.
    ///
    /// # Errors
    ///
    /// The first rule that the scene breaks, and where; or that the text is no TOML that is read; or that there is no memory.
    ///
    /// ```
    /// use lakmozet::{Scene, SceneError, SceneRule};
    ///
    /// let why = Scene::read("passes = -1").unwrap_err();
    /// assert!(matches!(why, SceneError::Refused { rule: SceneRule::OutOfRange, .. }));
    /// assert_eq!(why.to_string(), "SceneRefused 5 OutOfRange scene 0 passes");
    ///
    /// let why = Scene::read("passes = 8\ngravity [0, -179, 0]").unwrap_err();
    /// assert!(matches!(why, SceneError::NotToml { offset: 19, .. }));
    /// ```
    pub fn read(text: &str) -> Result<Scene, SceneError> {
        match pbd_scene::read_scene(Global, text, pbd_num::RANGE) {
            Ok(parts) => Ok(Scene { parts }),
            Err(fault) => Err(SceneError::of(fault, text)),
        }
    }

    /// How many particles it has, at most 65,536.
    #[must_use]
    pub fn particles(&self) -> usize {
        self.parts.parts().particles.as_slice().len()
    }

    /// How many links it has, at most 524,288.
    #[must_use]
    pub fn links(&self) -> usize {
        self.parts.parts().links.as_slice().len()
    }
}

impl FromStr for Scene {
    type Err = SceneError;

    fn from_str(text: &str) -> Result<Scene, SceneError> {
        Scene::read(text)
    }
}

impl fmt::Debug for Scene {
    fn fmt(&self, f: &mut fmt::Formatter<'_>) -> fmt::Result {
        f.debug_struct("Scene")
            .field("particles", &self.particles())
            .field("links", &self.links())
            .finish_non_exhaustive()
    }
}
