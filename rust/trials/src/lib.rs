//! Made-up rigs: configurations, frames and logs, from a seed. The differential tests and the benchmark share them.

pub mod arrivals;
pub mod damage;
pub mod logs;
pub mod plan;
pub mod random;
pub mod sound;
pub mod traffic;
