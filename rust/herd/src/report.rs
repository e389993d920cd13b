//! What a command comes to.

/// What a command has to say.
#[derive(Debug, Default)]
pub struct Report {
    /// For standard output.
    pub text: String,
    /// What was refused beside it, a sentence each, for standard error.
    pub refused: Vec<String>,
    /// What was noticed and is no reason to refuse, for standard error too.
    pub noticed: Vec<String>,
}

/// Why a command did nothing.
#[derive(Debug)]
pub enum Failure {
    /// Something was refused, in a sentence.
    Refused(String),
    /// The command was not used as its help says.
    Misuse(String),
}

pub type Outcome = Result<Report, Failure>;

impl From<String> for Report {
    fn from(text: String) -> Report {
        Report { text, ..Report::default() }
    }
}

/// For `map_err`.
pub fn refused(sentence: impl ToString) -> Failure {
    Failure::Refused(sentence.to_string())
}
