//! What the bench and its tests plan: tables by seed, and three unverified planners beside the proved one.

pub mod peer;
pub mod tables;
pub mod task;
