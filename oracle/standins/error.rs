//! The errors that the source's reader names.

#[derive(Debug)]
pub enum Error {
    InvalidFormat,
    MissingDimension(char),
    Io(std::io::Error),
    Hdf(crate::hdf::Error),
}

pub type Result<T> = std::result::Result<T, Error>;

impl From<std::io::Error> for Error {
    fn from(e: std::io::Error) -> Self {
        Error::Io(e)
    }
}

impl From<crate::hdf::Error> for Error {
    fn from(e: crate::hdf::Error) -> Self {
        Error::Hdf(e)
    }
}
