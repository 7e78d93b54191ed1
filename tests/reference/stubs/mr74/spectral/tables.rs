//! Stub: the LSF quantiser's tables were not given. Only functions that are never called read them.
pub const FIRST: [[i16; 3]; 1] = [[0; 3]];
pub const SECOND: [[i16; 3]; 1] = [[0; 3]];
pub const THIRD: [[i16; 4]; 1] = [[0; 4]];
pub const PREDICTOR: [i16; 10] = [0; 10];
pub const MEAN: [i16; 10] = [0; 10];
pub const SID_RESIDUAL: [[i16; 10]; 1] = [[0; 10]];
