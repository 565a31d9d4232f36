//! The proved library compared with the second implementation, on known, enumerated, random and lent inputs.

pub mod answer;
pub mod broken;
pub mod bytes;
pub mod calls;
pub mod crowd;
pub mod difference;
pub mod dues;
pub mod dumps;
pub mod entries;
pub mod enumerate;
pub mod family;
pub mod faults;
pub mod holders;
pub mod known;
pub mod lent;
pub mod lists;
pub mod moves;
pub mod promise;
pub mod random;
pub mod runs;
pub mod shrink;
pub mod sides;
pub mod state;
pub mod ticks;
pub mod tops;
pub mod words;
