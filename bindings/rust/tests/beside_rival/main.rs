//! The library beside a simple rival, on many inputs: every answer, every refusal, and every area with guards around it.

mod cases;
mod drawings;
mod limits;
mod random;
mod rival;
mod sessions;
mod statistics;
mod sums;
