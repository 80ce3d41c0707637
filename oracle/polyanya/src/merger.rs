//! Stands in for the original's merger.rs, of which the extract uses nothing.
