//! Where something is wrong in a text, in one form: `FILE:LINE: reason`.

/// What is wrong with a text, and in which line; 0 is the text as a whole.
#[derive(Clone, Debug, PartialEq, Eq)]
pub struct Error {
    pub line: usize,
    pub reason: String,
}

impl Error {
    /// What is said of this error in a file.
    pub fn within(&self, file: &str) -> String {
        match self.line {
            0 => format!("{file}: {}", self.reason),
            line => format!("{file}:{line}: {}", self.reason),
        }
    }
}
