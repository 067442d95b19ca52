//! Why an operation refuses, and at which line of the job text.

#[derive(Clone, Copy, Debug, PartialEq, Eq)]
pub struct Refusal {
    pub number: u8,
    pub line: usize,
}

pub type Result<T> = std::result::Result<T, Refusal>;

/// A refusal without a line.
pub fn refuse<T>(number: u8) -> Result<T> {
    refuse_at(number, 0)
}

pub fn refuse_at<T>(number: u8, line: usize) -> Result<T> {
    Err(Refusal { number, line })
}

impl Refusal {
    /// The refusal in one number, as the proved operations tell it.
    pub fn packed(self) -> u64 {
        self.number as u64 | (self.line as u64) << 8
    }
}
