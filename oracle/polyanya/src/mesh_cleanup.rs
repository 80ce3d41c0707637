//! Stands in for the original's mesh_cleanup.rs, of which the extract uses nothing.
