//! What a call answers.

#[derive(Clone, Copy, Debug, PartialEq, Eq)]
pub struct Answer {
    pub status: u32,
    pub pixels: u64,
}

impl Answer {
    /// "Each returns its number and 0 pixels"
    pub fn refused(status: u32) -> Answer {
        Answer { status, pixels: 0 }
    }
}
