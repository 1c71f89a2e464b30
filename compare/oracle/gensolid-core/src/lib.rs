//! Stand-in for gensolid-core, which is not published: errors with a class and a text, and the session's precision.

/// The classes that the published files name, `CapacityExceeded` directly and the others by a constructor.
#[derive(Clone, Copy, Debug, PartialEq, Eq)]
pub enum ErrorCode {
    InvalidArgument,
    Degenerate,
    Unimplemented,
    CapacityExceeded,
    Internal,
    Unsupported,
}

#[derive(Clone, Debug)]
pub struct Error {
    pub code: ErrorCode,
    pub text: String,
}

pub type Result<T> = std::result::Result<T, Error>;

impl Error {
    pub fn new(code: ErrorCode, text: impl Into<String>) -> Self {
        Self { code, text: text.into() }
    }
    pub fn invalid_argument(text: impl Into<String>) -> Self {
        Self::new(ErrorCode::InvalidArgument, text)
    }
    pub fn degenerate(text: impl Into<String>) -> Self {
        Self::new(ErrorCode::Degenerate, text)
    }
    pub fn unimplemented(text: impl Into<String>) -> Self {
        Self::new(ErrorCode::Unimplemented, text)
    }
    pub fn internal(text: impl Into<String>) -> Self {
        Self::new(ErrorCode::Internal, text)
    }
    pub fn unsupported(text: impl Into<String>) -> Self {
        Self::new(ErrorCode::Unsupported, text)
    }
}

/// Three positive numbers behind accessors.
#[derive(Clone, Copy, Debug, PartialEq)]
pub struct Precision {
    linear: f64,
    angular: f64,
    degenerate_length: f64,
}

impl Precision {
    pub const fn of(linear: f64, angular: f64, degenerate_length: f64) -> Self {
        Self { linear, angular, degenerate_length }
    }
    pub const fn linear(&self) -> f64 {
        self.linear
    }
    pub const fn angular(&self) -> f64 {
        self.angular
    }
    pub const fn degenerate_length(&self) -> f64 {
        self.degenerate_length
    }
}

impl Default for Precision {
    fn default() -> Self {
        Self::of(1e-8, 1e-11, 1e-8)
    }
}
