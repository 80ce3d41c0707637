// The extract's instance.rs as it is, and beside it the module through which the harness reaches in.
include!("../extract/instance.rs");

mod reach;
