//! A stand-in for veritasm's error type: a code and a text.

use std::fmt;

#[derive(Debug, Clone, Copy, PartialEq, Eq)]
pub enum ErrorCode {
    ConfigurationInvalidLimit,
    InternalInvariant,
    ResourceMemory,
    /// What `overflow` gives. The modules do not name its code.
    Overflow,
}

#[derive(Debug, Clone, PartialEq, Eq)]
pub struct VeritasmError {
    pub code: ErrorCode,
    pub text: String,
}

pub type Result<T> = std::result::Result<T, VeritasmError>;

impl VeritasmError {
    pub fn new(code: ErrorCode, text: impl Into<String>) -> Self {
        Self { code, text: text.into() }
    }
}

pub fn overflow(text: impl Into<String>) -> VeritasmError {
    VeritasmError::new(ErrorCode::Overflow, text)
}

impl fmt::Display for VeritasmError {
    fn fmt(&self, f: &mut fmt::Formatter<'_>) -> fmt::Result {
        write!(f, "{:?}: {}", self.code, self.text)
    }
}

impl std::error::Error for VeritasmError {}
