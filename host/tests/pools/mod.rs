//! Pools at the limit of request 2026-07, in tickets and in the saver. The numbers are written down from the request: "192
//! passes and 193 gives 5. Filed tickets asking for more get 5 too."

/// The limit before the request: filed tickets ask for so many buffers at most.
pub const BEFORE: usize = 1024;

/// The least pool, the largest and those next to them.
pub const PASS: [usize; 4] = [1, 2, 191, 192];

/// None; one buffer too many and more; those whose last 8 bits are a pool; the limit before and those next to it; and the
/// largest that 4 digits say.
#[rustfmt::skip]
pub const GIVE_5: [usize; 12] = [0, 193, 194, 255, 256, 257, 256 + 192, BEFORE - 1, BEFORE, BEFORE + 1, 0xFF00, 0xFFFF];
