//! Stands in for the original's readers of mesh files: the names that lib.rs passes on.

pub mod polyanya_file {
    /// A name only.
    #[derive(Debug, Clone, Copy)]
    pub struct PolyanyaFile;
}

pub mod triangulation {
    /// A name only.
    #[derive(Debug, Clone, Copy)]
    pub struct Triangulation;
}

pub mod trimesh {
    /// A name only.
    #[derive(Debug, Clone, Copy)]
    pub struct Trimesh;
}
