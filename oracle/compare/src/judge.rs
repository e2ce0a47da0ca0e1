//! What is asked of every input: the port answers as document 01 says, and the original answers the same, but for the listed departures.
use std::fmt::Debug;

/// What the comparison of one input found.
pub enum Outcome {
    Equal,
    /// The port departs from the original here, as docs/DIFFERENCES.md lists it under this name.
    Departure(&'static str),
    Different(String),
}

/// What a listed departure says of the original.
#[derive(Debug)]
pub enum Original<T> {
    Answers(T),
    /// Panics with these words, or, of a function that it lacks, has no answer for this reason.
    Panics(&'static str),
}

/// A listed departure at one input: its name, and what the original does there.
pub type Listed<T> = Option<(&'static str, Original<T>)>;

/// `original` is the answer, or the words of the panic.
pub fn judge<T: PartialEq + Debug>(
    port: T,
    document01: T,
    original: Result<T, String>,
    listed: Listed<T>,
) -> Outcome {
    if port != document01 {
        return Outcome::Different(format!(
            "the port answers {port:?}, document 01 says {document01:?}, the original {original:?}"
        ));
    }
    match listed {
        None if original.as_ref() == Ok(&document01) => Outcome::Equal,
        None => Outcome::Different(format!(
            "no departure is listed here; the port and document 01 say {port:?}, the original {original:?}"
        )),
        Some((name, expected)) => {
            let as_listed = match (&expected, &original) {
                (Original::Answers(answer), Ok(given)) => answer == given,
                (Original::Panics(words), Err(panic)) => words == panic,
                _ => false,
            };
            if as_listed {
                Outcome::Departure(name)
            } else {
                Outcome::Different(format!(
                    "{name}: the original {original:?} is not what is listed, {expected:?}"
                ))
            }
        }
    }
}
