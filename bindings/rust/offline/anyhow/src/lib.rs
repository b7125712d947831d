//! An error of any type, by the names of the crate `anyhow`, as far as `varisat-checker` needs them: it is here so that that one builds
//! without a network.
#![warn(missing_docs)]
use std::any::Any;
use std::error::Error as StdError;
use std::fmt;
use std::ops::Deref;

/// What fails with an [`Error`].
pub type Result<T, E = Error> = std::result::Result<T, E>;

/// An error of any type, or a message.
pub struct Error(Box<dyn Inner>);

impl Error {
    /// The error itself.
    pub fn new<E: StdError + Send + Sync + 'static>(error: E) -> Error {
        Error(Box::new(Wrapped(error)))
    }

    /// An error that has only a message.
    pub fn msg<M: fmt::Display + fmt::Debug + Send + Sync + 'static>(message: M) -> Error {
        Error(Box::new(Message(message)))
    }

    /// Whether it was made of this type, by `new` or by `msg`.
    pub fn is<E: 'static>(&self) -> bool {
        self.0.as_any().is::<E>()
    }

    /// What it was made of, if that is of this type.
    pub fn downcast_ref<E: 'static>(&self) -> Option<&E> {
        self.0.as_any().downcast_ref()
    }

    /// What it was made of, if that is of this type; else itself.
    pub fn downcast<E: 'static>(self) -> Result<E> {
        if !self.is::<E>() {
            return Err(self);
        }
        let made_of = self.0.into_any().downcast().expect("it was made of this type");
        Ok(*made_of)
    }

    /// The error, what caused it, and so on.
    pub fn chain(&self) -> impl Iterator<Item = &(dyn StdError + 'static)> {
        let first: &(dyn StdError + 'static) = self.0.as_error();
        std::iter::successors(Some(first), |&error| error.source())
    }

    /// The last one of `chain`.
    pub fn root_cause(&self) -> &(dyn StdError + 'static) {
        self.chain().last().expect("a chain begins with the error")
    }
}

impl<E: StdError + Send + Sync + 'static> From<E> for Error {
    fn from(error: E) -> Error {
        Error::new(error)
    }
}

impl From<Error> for Box<dyn StdError + Send + Sync> {
    fn from(error: Error) -> Self {
        error.0.into_error()
    }
}

impl Deref for Error {
    type Target = dyn StdError + Send + Sync + 'static;

    fn deref(&self) -> &Self::Target {
        self.0.as_error()
    }
}

impl fmt::Display for Error {
    fn fmt(&self, f: &mut fmt::Formatter<'_>) -> fmt::Result {
        fmt::Display::fmt(self.0.as_error(), f)
    }
}

impl fmt::Debug for Error {
    fn fmt(&self, f: &mut fmt::Formatter<'_>) -> fmt::Result {
        fmt::Debug::fmt(self.0.as_error(), f)
    }
}

/// What an error was made of, as an error and as a value.
trait Inner: Send + Sync {
    fn as_error(&self) -> &(dyn StdError + Send + Sync + 'static);
    fn into_error(self: Box<Self>) -> Box<dyn StdError + Send + Sync>;
    fn as_any(&self) -> &dyn Any;
    fn into_any(self: Box<Self>) -> Box<dyn Any>;
}

struct Wrapped<E>(E);

impl<E: StdError + Send + Sync + 'static> Inner for Wrapped<E> {
    fn as_error(&self) -> &(dyn StdError + Send + Sync + 'static) {
        &self.0
    }

    fn into_error(self: Box<Self>) -> Box<dyn StdError + Send + Sync> {
        Box::new(self.0)
    }

    fn as_any(&self) -> &dyn Any {
        &self.0
    }

    fn into_any(self: Box<Self>) -> Box<dyn Any> {
        Box::new(self.0)
    }
}

struct Message<M>(M);

impl<M: fmt::Display> fmt::Display for Message<M> {
    fn fmt(&self, f: &mut fmt::Formatter<'_>) -> fmt::Result {
        self.0.fmt(f)
    }
}

impl<M: fmt::Debug> fmt::Debug for Message<M> {
    fn fmt(&self, f: &mut fmt::Formatter<'_>) -> fmt::Result {
        self.0.fmt(f)
    }
}

impl<M: fmt::Display + fmt::Debug> StdError for Message<M> {}

impl<M: fmt::Display + fmt::Debug + Send + Sync + 'static> Inner for Message<M> {
    fn as_error(&self) -> &(dyn StdError + Send + Sync + 'static) {
        self
    }

    fn into_error(self: Box<Self>) -> Box<dyn StdError + Send + Sync> {
        self
    }

    fn as_any(&self) -> &dyn Any {
        &self.0
    }

    fn into_any(self: Box<Self>) -> Box<dyn Any> {
        Box::new(self.0)
    }
}

/// An error with a message, formatted as by `format!`.
#[macro_export]
macro_rules! anyhow {
    ($($message:tt)+) => {
        $crate::Error::msg(format!($($message)+))
    };
}

/// Returns an error with a message, formatted as by `format!`.
#[macro_export]
macro_rules! bail {
    ($($message:tt)+) => {
        return Err($crate::anyhow!($($message)+))
    };
}

/// Returns an error with a message unless a condition holds.
#[macro_export]
macro_rules! ensure {
    ($condition:expr, $($message:tt)+) => {
        if !$condition {
            $crate::bail!($($message)+);
        }
    };
}
