//! The original files of engeom over stand-ins. `original/` is filled by oracle/build.sh: whole files byte for byte, and of common.rs and points.rs
//! the items that the others use. docs/DIFFERENCES.md lists every stand-in and every line left out.
#![allow(dead_code)]

// The crates that are not to be had: their names lead to the modules below.
extern crate self as bitvec;
extern crate self as faer;
extern crate self as parry3d_f64;
extern crate self as serde;

pub mod na;
pub mod prelude;
pub mod utils;

// serde's derives: other derives under their names, so that nothing is read or written.
pub use std::default::Default as Deserialize;
pub use std::hash::Hash as Serialize;

pub type Result<T> = std::result::Result<T, Box<dyn std::error::Error>>;
pub type Point3 = na::Point<f64, 3>;
pub type Vector3 = na::SVector<f64, 3>;
pub type UnitVec3 = na::Unit<Vector3>;

#[path = "original/edges.rs"]
pub mod edges;
#[path = "original/index_mask.rs"]
pub mod index_mask;
#[path = "original/normals.rs"]
pub mod normals;
#[path = "original/patches.rs"]
pub mod patches;
#[path = "original/repair.rs"]
pub mod repair;

pub mod coordinates {
    use crate::na::{Point, SVector};
    include!("original/common.rs");
}

pub mod points {
    use crate::common::PCoords;
    include!("original/points.rs");
}

// The paths that the originals name.
pub mod common {
    pub use crate::coordinates::PCoords;
    pub use crate::index_mask::IndexMask;
    pub use crate::points;
}

pub mod geom3 {
    pub mod mesh {
        pub use crate::edges;
        pub mod algorithms {
            pub use crate::normals;
        }
    }
    pub mod half_edge3 {
        pub use crate::HalfEdgeMesh3;
    }
}

/// For parry's `TriMesh`: the two lists.
pub struct TriMesh {
    points: Vec<Point3>,
    faces: Vec<[u32; 3]>,
}

impl TriMesh {
    pub fn vertices(&self) -> &[Point3] {
        &self.points
    }
    pub fn indices(&self) -> &[[u32; 3]] {
        &self.faces
    }
}

/// For `Mesh3`: the two lists, also where there is no face.
pub struct Mesh3 {
    shape: TriMesh,
}

impl Mesh3 {
    pub fn new(points: Vec<Point3>, faces: Vec<[u32; 3]>) -> Self {
        Mesh3 { shape: TriMesh { points, faces } }
    }
    pub fn points(&self) -> &[Point3] {
        self.shape.vertices()
    }
    pub fn faces(&self) -> &[[u32; 3]] {
        self.shape.indices()
    }
}

/// For alum's mesh and `HalfEdgeMesh3`, which are left behind: they are only compiled, never run.
pub struct Alum;

impl Alum {
    pub fn add_vertex(&mut self, _: Vector3) -> std::result::Result<u32, String> {
        Err("left behind".into())
    }
    pub fn add_tri_face(&mut self, _: u32, _: u32, _: u32) -> std::result::Result<(), String> {
        Err("left behind".into())
    }
}

pub struct HalfEdgeMesh3 {
    alum: Alum,
}

impl HalfEdgeMesh3 {
    pub fn new() -> Self {
        HalfEdgeMesh3 { alum: Alum }
    }
    pub fn as_alum_mut(&mut self) -> &mut Alum {
        &mut self.alum
    }
}
