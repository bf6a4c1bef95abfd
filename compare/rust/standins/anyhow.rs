//! Stands in for the crate `anyhow`: an error is the text that `bail!` wrote, and the context put around it.
use std::fmt;

#[derive(Debug)]
pub struct Error {
    context: Option<String>,
    cause: String,
}

pub type Result<T, E = Error> = std::result::Result<T, E>;

impl Error {
    pub fn msg(cause: impl fmt::Display) -> Self {
        Self {
            context: None,
            cause: cause.to_string(),
        }
    }

    /// The text without the context.
    pub fn root_cause(&self) -> &str {
        &self.cause
    }
}

impl fmt::Display for Error {
    fn fmt(&self, f: &mut fmt::Formatter<'_>) -> fmt::Result {
        f.write_str(self.context.as_ref().unwrap_or(&self.cause))
    }
}

impl<E: std::error::Error> From<E> for Error {
    fn from(error: E) -> Self {
        Self::msg(error)
    }
}

pub trait Context<T> {
    fn with_context(self, context: impl FnOnce() -> String) -> Result<T>;
}

impl<T> Context<T> for Result<T> {
    fn with_context(self, context: impl FnOnce() -> String) -> Result<T> {
        self.map_err(|error| Error {
            context: Some(context()),
            ..error
        })
    }
}

#[macro_export]
macro_rules! bail {
    ($($text:tt)*) => {
        return Err($crate::Error::msg(format!($($text)*)))
    };
}
