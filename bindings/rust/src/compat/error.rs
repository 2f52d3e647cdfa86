//! Why a text is no number, and why a text is no database.
use crate::Error;
use std::fmt;
use std::num::ParseIntError;
use std::str::ParseBoolError;

/// Why a text is no number.
#[derive(Clone, Debug, PartialEq, Eq)]
pub enum ParseError {
    /// No parser takes the text, or its national part is not viable.
    NoNumber,
    /// The calling code is listed nowhere, or there is none and no country gives one.
    InvalidCountryCode,
    /// Too few digits follow an international prefix: no parser of this crate says so.
    TooShortAfterIdd,
    /// Too few digits are there for a national number.
    TooShortNsn,
    /// More digits are there than a national number may have.
    TooLong,
    /// A national text that is no number, as that of zeros alone.
    MalformedInteger(ParseIntError),
}

impl ParseError {
    /// The same error; the program ends where there was no memory.
    pub(super) fn of(error: Error) -> ParseError {
        match error {
            Error::NoNumber => ParseError::NoNumber,
            Error::InvalidCountryCode => ParseError::InvalidCountryCode,
            Error::TooShortAfterIdd => ParseError::TooShortAfterIdd,
            Error::TooShortNsn => ParseError::TooShortNsn,
            Error::TooLong => ParseError::TooLong,
            Error::MalformedInteger => ParseError::MalformedInteger("".parse::<u64>().expect_err("it has no digit")),
            other => panic!("{other}"),
        }
    }

    /// The same error without its cause.
    fn plain(&self) -> Error {
        match self {
            ParseError::NoNumber => Error::NoNumber,
            ParseError::InvalidCountryCode => Error::InvalidCountryCode,
            ParseError::TooShortAfterIdd => Error::TooShortAfterIdd,
            ParseError::TooShortNsn => Error::TooShortNsn,
            ParseError::TooLong => Error::TooLong,
            ParseError::MalformedInteger(_) => Error::MalformedInteger,
        }
    }
}

impl From<ParseError> for Error {
    fn from(error: ParseError) -> Error {
        error.plain()
    }
}

impl From<ParseIntError> for ParseError {
    fn from(cause: ParseIntError) -> ParseError {
        ParseError::MalformedInteger(cause)
    }
}

impl fmt::Display for ParseError {
    fn fmt(&self, f: &mut fmt::Formatter<'_>) -> fmt::Result {
        self.plain().fmt(f)?;
        if let ParseError::MalformedInteger(cause) = self { write!(f, ": {cause}") } else { Ok(()) }
    }
}

impl std::error::Error for ParseError {
    fn source(&self) -> Option<&(dyn std::error::Error + 'static)> {
        if let ParseError::MalformedInteger(cause) = self { Some(cause) } else { None }
    }
}

/// Why records are no database.
#[derive(Clone, Debug, PartialEq, Eq)]
pub enum MetadataError {
    /// An XML text ends too soon.
    UnexpectedEof,
    /// An XML element ends that wasn't the last one to begin.
    MismatchedTag(String),
    /// A record lacks a value that it must have.
    MissingValue { phase: String, name: String },
    /// A record has a member, or an XML element an element, that it may not have.
    UnhandledElement { phase: String, name: String },
    /// An XML element has an attribute that it may not have.
    UnhandledAttribute { phase: String, name: String, value: String },
    /// An XML text has something else: this crate never says so.
    UnhandledEvent { phase: String, event: String },
}

impl fmt::Display for MetadataError {
    fn fmt(&self, f: &mut fmt::Formatter<'_>) -> fmt::Result {
        match self {
            MetadataError::UnexpectedEof => f.write_str("unexpected end of file"),
            MetadataError::MismatchedTag(name) => write!(f, "mismatched tag: {name:?}"),
            MetadataError::MissingValue { phase, name } => write!(f, "{phase}: missing value: {name:?}"),
            MetadataError::UnhandledElement { phase, name } => write!(f, "{phase}: unhandled element: {name:?}"),
            MetadataError::UnhandledAttribute { phase, name, value } => {
                write!(f, "{phase}: unhandled attribute: {name:?}={value:?}")
            }
            MetadataError::UnhandledEvent { phase, event } => write!(f, "{phase}: unhandled event: {event:?}"),
        }
    }
}

impl std::error::Error for MetadataError {}

/// Why a database isn't opened.
#[derive(Debug)]
#[non_exhaustive]
pub enum LoadError {
    /// What is wrong with a record.
    Metadata(MetadataError),
    /// The text is no XML.
    Xml(String),
    /// A text of XML that is to be a number isn't.
    Integer(ParseIntError),
    /// A text of XML that is to be `true` or `false` isn't.
    Bool(ParseBoolError),
    /// The text is no JSON, has a value of the wrong kind, or a text that is no pattern.
    Database(Error),
    /// The file can't be read.
    Io(std::io::Error),
}

impl fmt::Display for LoadError {
    fn fmt(&self, f: &mut fmt::Formatter<'_>) -> fmt::Result {
        match self {
            LoadError::Metadata(error) => error.fmt(f),
            LoadError::Xml(what) => write!(f, "malformed XML: {what}"),
            LoadError::Integer(error) => write!(f, "malformed integer in XML: {error}"),
            LoadError::Bool(error) => write!(f, "malformed truth value in XML: {error}"),
            LoadError::Database(error) => error.fmt(f),
            LoadError::Io(error) => write!(f, "I/O error: {error}"),
        }
    }
}

impl std::error::Error for LoadError {}

impl From<MetadataError> for LoadError {
    fn from(error: MetadataError) -> LoadError {
        LoadError::Metadata(error)
    }
}

impl From<ParseIntError> for LoadError {
    fn from(error: ParseIntError) -> LoadError {
        LoadError::Integer(error)
    }
}

impl From<ParseBoolError> for LoadError {
    fn from(error: ParseBoolError) -> LoadError {
        LoadError::Bool(error)
    }
}

impl From<Error> for LoadError {
    fn from(error: Error) -> LoadError {
        LoadError::Database(error)
    }
}

impl From<std::io::Error> for LoadError {
    fn from(error: std::io::Error) -> LoadError {
        LoadError::Io(error)
    }
}
