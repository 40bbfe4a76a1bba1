//! What is asked about a form, and what is answered.

/// What is asked: a store as the decoder left it, the eighty numbers of a form, and the caller's mark and quota.
#[derive(Clone, Debug)]
pub struct Ask {
    pub columns: u32,
    pub changes: Vec<u32>,
    pub ends: Vec<u64>,
    pub marks: Vec<u8>,
    pub boxes: Vec<u32>,
    pub least: u64,
    pub quota: i32,
}

/// The answer as C has it.
#[repr(C)]
#[derive(Clone, Copy, Debug, Default, PartialEq, Eq)]
pub struct HeadsAnswer {
    pub number: u32,
    pub heads: u32,
    pub left: i32,
}
