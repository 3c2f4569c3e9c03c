//! What the program `bench` is made of: the batches that it measures, the processes that it times, the tables, and the picture.

pub mod batches;
pub mod calls;
pub mod curves;
pub mod kinds;
pub mod picture;
pub mod process;
