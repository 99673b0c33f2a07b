//! 02's well-head display: within 16 probes and 40 links the same as from the full calls, beyond 3.

mod buffers;
mod core;
mod limits;
mod random;
mod small;

/// Needs, lows, highs and costs for the most probes and links, never too short for the display.
const SMALL: [usize; 4] = [16, 40, 40, 40];
