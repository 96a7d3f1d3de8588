//! What the twelve carried patterns make of one block, worked out by hand and not
//! by `pattern`, for the tests and the comparison.

/// The developed samples of the block, row by row: 1/2, 1/4 over 3/4, 1/8.
pub const SAMPLES: [f64; 4] = [0.5, 0.25, 0.75, 0.125];

/// Each carried pattern with the red, the mean of the greens and the blue of these
/// samples.
pub const VALUES: [([u8; 4], [f64; 3]); 12] = [
    ([0, 1, 1, 2], [0.5, 0.5, 0.125]),
    ([0, 1, 2, 1], [0.5, 0.1875, 0.75]),
    ([0, 2, 1, 1], [0.5, 0.4375, 0.25]),
    ([1, 0, 1, 2], [0.25, 0.625, 0.125]),
    ([1, 0, 2, 1], [0.25, 0.3125, 0.75]),
    ([1, 1, 0, 2], [0.75, 0.375, 0.125]),
    ([1, 1, 2, 0], [0.125, 0.375, 0.75]),
    ([1, 2, 0, 1], [0.75, 0.3125, 0.25]),
    ([1, 2, 1, 0], [0.125, 0.625, 0.25]),
    ([2, 0, 1, 1], [0.25, 0.4375, 0.5]),
    ([2, 1, 0, 1], [0.75, 0.1875, 0.5]),
    ([2, 1, 1, 0], [0.125, 0.5, 0.5]),
];
