//! What the programs share: the original's functions, the inputs and the answers; and the steps and the search of document 01.

pub mod answer;
pub mod chunks;
pub mod floor;
pub mod floors;
pub mod functions;
pub mod halls;
pub mod inputs;
pub mod judge01;
pub mod listed;
pub mod listed_search;
pub mod random;
pub mod search01;
pub mod steps01;
