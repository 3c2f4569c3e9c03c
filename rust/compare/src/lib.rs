//! Cases made from fixed seeds, and what it takes to run two implementations on them.

pub mod batches;
pub mod bench;
pub mod cases;
pub mod clients;
pub mod differentials;
pub mod fast;
pub mod first_index;
pub mod judge;
pub mod log_files;
pub mod logs;
pub mod pieces;
pub mod random;
pub mod records;
pub mod runs;
pub mod series;
pub mod sheets;
pub mod solution_files;
pub mod solutions;
pub mod step_files;
pub mod steps;
pub mod subject;
pub mod systems;
pub mod tally;
pub mod typed;
