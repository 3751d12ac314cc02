//! Campaigns and records to try the chronicle on: samples, draws, edges, extremes and damage.

pub mod adversary;
pub mod cases;
pub mod damage;
pub mod edges;
pub mod extremes;
pub mod generate;
pub mod lists;
pub mod sample;
pub mod shrink;
pub mod wars;
