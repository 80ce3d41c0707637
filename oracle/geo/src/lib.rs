//! Stands in for geo, which lib.rs passes on by name only.
