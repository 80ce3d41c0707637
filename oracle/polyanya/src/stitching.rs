//! Stands in for the original's stitching.rs, of which the extract uses nothing.
