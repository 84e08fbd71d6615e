//! Meshes that become cloth.
use crate::parts::kit::alloc::{AllocError, Global};
use crate::parts::kit::CollectIn;
use crate::parts::pbd_obj::{add_mesh_with, mesh_of, triangles_of, ArraysFault, ObjFault, ObjMesh};
use crate::parts::pbd_world::{self, PartsFault};
use crate::position::Position;
use crate::scene::Scene;
use alloc::vec::Vec;
use core::error::Error;
use core::fmt;

/// The stiffness of the links of a kind, in 256ths and at most 256, and the length above which they tear, in units of 1/65,536 metre,
/// or 0 where they never do.
#[doc(inline)]
pub use crate::parts::pbd_obj::LinkSettings;

/// How a mesh becomes cloth: the weight of each particle, 1 to 65,535, and the links along the sides of faces (`stretch`), across
/// faces of four corners (`shear`), and across each side that exactly two faces share (`bend`), if there are to be such.
/// `MeshSettings::stiff()` has those of the program's form `obj`: weight 1, stiffness 256, no tearing and no bend links.
#[doc(inline)]
pub use crate::parts::pbd_obj::MeshSettings;

/// A mesh in memory: vertices, and faces of three or more different ones.
#[derive(Clone, Copy, Debug)]
pub struct Mesh<'a> {
    /// Where the vertices are, in units of 1/65,536 metre and within 2^29 on each axis.
    pub vertices: &'a [Position],
    /// How many corners each face has.
    pub sizes: &'a [u32],
    /// The corners, one face after another: numbers of vertices, from 0.
    pub corners: &'a [u32],
}

/// Why a mesh becomes no cloth. Vertices and faces are counted from 0.
#[derive(Clone, Copy, Debug, PartialEq, Eq)]
#[non_exhaustive]
pub enum MeshError {
    /// The faces don't have as many corners together as there are.
    BadCount,
    /// This vertex is outside 2^29.
    OutOfRange {
        /// Its number.
        vertex: usize,
    },
    /// This face isn't three or more different vertices.
    BadFace {
        /// Its number.
        face: usize,
    },
    /// A weight, a stiffness or a tear length is outside its range.
    BadSettings,
    /// The scene would have more than 65,536 particles or 524,288 links.
    TooMany,
    /// More than 32 links would meet at this vertex.
    TooManyAtParticle {
        /// Its number.
        vertex: usize,
    },
    /// There was no memory.
    OutOfMemory,
}

impl From<ArraysFault> for MeshError {
    fn from(fault: ArraysFault) -> MeshError {
        match fault {
            ArraysFault::BadCount => MeshError::BadCount,
            ArraysFault::OutOfRange { vertex } => MeshError::OutOfRange { vertex },
            ArraysFault::BadFace { face } => MeshError::BadFace { face },
            ArraysFault::OutOfMemory => MeshError::OutOfMemory,
        }
    }
}

impl From<ObjFault> for MeshError {
    fn from(fault: ObjFault) -> MeshError {
        match fault {
            // (counted from 1 there, as the lines of a text are)
            ObjFault::TooManyAtParticle { vertex } => MeshError::TooManyAtParticle {
                vertex: vertex as usize - 1,
            },
            ObjFault::OutOfMemory => MeshError::OutOfMemory,
            // (the others are of texts, but for this one)
            _ => MeshError::TooMany,
        }
    }
}

impl From<AllocError> for MeshError {
    fn from(AllocError: AllocError) -> MeshError {
        MeshError::OutOfMemory
    }
}

impl fmt::Display for MeshError {
    fn fmt(&self, f: &mut fmt::Formatter<'_>) -> fmt::Result {
        match self {
            MeshError::OutOfRange { vertex } => write!(f, "OutOfRange vertex {vertex}"),
            MeshError::BadFace { face } => write!(f, "BadFace face {face}"),
            MeshError::TooManyAtParticle { vertex } => {
                write!(f, "TooManyAtParticle vertex {vertex}")
            }
            // the names of the others are all that is told
            other => write!(f, "{other:?}"),
        }
    }
}

impl Error for MeshError {}

impl Mesh<'_> {
    /// The triangles of its faces, as numbers of vertices, to draw: a face a b c d is a b c and a c d. Where a scene
    /// has n particles, vertex v of a mesh that is added to it becomes particle n + v.
    ///
    /// # Errors
    ///
    /// The first fault of the mesh, or that there is no memory.
    ///
    /// ```
    /// use lakmozet::{Mesh, MeshError, Position};
    ///
    /// let square = [[0, 0, 0], [6554, 0, 0], [6554, 0, 6554], [0, 0, 6554]].map(Position::from);
    /// let mesh = Mesh { vertices: &square, sizes: &[4], corners: &[0, 1, 2, 3] };
    /// assert_eq!(mesh.triangles()?, [[0, 1, 2], [0, 2, 3]]);
    ///
    /// let more = Mesh { sizes: &[3], ..mesh };
    /// assert_eq!(more.triangles(), Err(MeshError::BadCount));
    /// # Ok::<(), MeshError>(())
    /// ```
    pub fn triangles(&self) -> Result<Vec<[u32; 3]>, MeshError> {
        let triangles = triangles_of(Global, &self.found()?)?;
        Ok(triangles
            .as_slice()
            .iter()
            .map(|it| [it.a, it.b, it.c])
            .collect())
    }

    fn found(&self) -> Result<ObjMesh, MeshError> {
        let vertices = self.vertices.iter().map(|at| at.vector());
        let vertices = vertices.collect_in(Global)?;
        Ok(mesh_of(Global, &vertices, self.sizes, self.corners)?)
    }
}

impl Scene {
    /// The scene with a mesh besides: its vertices are free particles at rest, numbered after those of the scene, and its links are
    /// numbered after the scene's.
    ///
    /// # Errors
    ///
    /// The first fault of the settings and the mesh, or that there is no memory.
    ///
    /// ```
    /// use lakmozet::{Cloth, Mesh, MeshError, MeshSettings, Position, Scene};
    ///
    /// let square = [[0, 0, 0], [6554, 0, 0], [6554, 0, 6554], [0, 0, 6554]].map(Position::from);
    /// let mesh = Mesh { vertices: &square, sizes: &[4], corners: &[0, 1, 2, 3] };
    /// let scene = Scene::read("gravity = [0, -179, 0]\npasses = 8")?.with_mesh(&mesh, &MeshSettings::stiff())?;
    /// assert_eq!((scene.particles(), scene.links()), (4, 6));
    /// let mut cloth = Cloth::open(&scene, 0)?;
    /// cloth.pin(0)?;
    /// cloth.step(10)?;
    ///
    /// let folded = Mesh { corners: &[0, 1, 2, 0], ..mesh };
    /// let why = Scene::read("")?.with_mesh(&folded, &MeshSettings::stiff()).unwrap_err();
    /// assert_eq!(why, MeshError::BadFace { face: 0 });
    /// # Ok::<(), Box<dyn std::error::Error>>(())
    /// ```
    pub fn with_mesh(self, mesh: &Mesh<'_>, settings: &MeshSettings) -> Result<Scene, MeshError> {
        if !settings.are_in_range() {
            return Err(MeshError::BadSettings);
        }
        let found = mesh.found()?;
        let mut parts = self.parts.into_parts();
        add_mesh_with(Global, &found, settings, &mut parts)?;
        match pbd_world::Scene::from_parts(Global, parts) {
            Ok(parts) => Ok(Scene { parts }),
            Err(PartsFault::OutOfMemory) => Err(MeshError::OutOfMemory),
            Err(PartsFault::NotValid) => unreachable!("what a mesh is added to stays valid"),
        }
    }
}
