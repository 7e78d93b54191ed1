//! Stub: named by a function that is never called.
pub struct SidParameters;

impl SidParameters {
    pub fn lsf_indices(&self) -> [u16; 3] {
        unreachable!("no silence descriptor is decoded")
    }

    pub fn residual_index(&self) -> u8 {
        unreachable!("no silence descriptor is decoded")
    }
}
