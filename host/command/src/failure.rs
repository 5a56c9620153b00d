//! Why a command gave nothing, what it says then, and its exit status.

use plus::take::Refused;
use plus::Answer;
use std::fmt;
use std::io::{self, Write};
use std::path::{Path, PathBuf};
use std::process::ExitCode;

/// Why a command ended early.
#[derive(Debug)]
pub enum Failure {
    /// Wrong use: what was wrong, and what is expected.
    Usage { wrong: String, expected: String },
    /// A call of the core was refused: its answer, the line of a text or the
    /// record of a take that it names, and what that means here.
    Refused {
        answer: Answer,
        place: Option<(&'static str, usize)>,
        meaning: String,
    },
    /// A file can't be read or written.
    File { path: PathBuf, error: io::Error },
    /// The same of a file that a line of a text names.
    Named {
        text: PathBuf,
        line: usize,
        path: PathBuf,
        error: io::Error,
    },
    /// A scene has faults: it ends early, or a letter of it is unknown.
    Scene { path: PathBuf, faults: Vec<String> },
    /// A scene has no take.
    NoTake { path: PathBuf, why: String },
    /// Standard output can't be written.
    Output(io::Error),
}

impl Failure {
    /// A refusal that names no place.
    pub fn refused(answer: Answer, meaning: String) -> Failure {
        Failure::Refused {
            answer,
            place: None,
            meaning,
        }
    }

    /// A refusal of a take, with what each number means.
    pub fn refused_take(refused: Refused, path: &Path) -> Failure {
        let name = path.display();
        let meaning = match refused.answer {
            Answer::NoTrailer => format!("{name} has no trailer"),
            Answer::NotMet => format!("the records of {name} don't end at its trailer"),
            Answer::BadRecord => format!("that record of {name} is bad"),
            _ => format!("{name} would be too long"),
        };
        Failure::Refused {
            answer: refused.answer,
            place: (refused.record != 0).then_some(("record", refused.record)),
            meaning,
        }
    }

    /// For a file that was named on the command line.
    pub fn file(path: &Path) -> impl FnOnce(io::Error) -> Failure + '_ {
        move |error| Failure::File {
            path: path.to_owned(),
            error,
        }
    }

    /// For a file that a line of a text names.
    pub fn named_in(self, text: PathBuf, line: usize) -> Failure {
        match self {
            Failure::File { path, error } => Failure::Named {
                text,
                line,
                path,
                error,
            },
            other => other,
        }
    }

    /// Says it on standard error, and gives the exit status. A reader that has
    /// closed standard output has had enough, and that is no failure.
    pub fn tell(&self) -> ExitCode {
        if let Failure::Output(error) = self {
            if error.kind() == io::ErrorKind::BrokenPipe {
                return ExitCode::SUCCESS;
            }
        }
        // With standard error gone too there is nobody left to tell.
        let _ = writeln!(io::stderr(), "{self}");
        match self {
            Failure::Usage { .. } => ExitCode::from(2),
            _ => ExitCode::FAILURE,
        }
    }
}

impl fmt::Display for Failure {
    fn fmt(&self, f: &mut fmt::Formatter) -> fmt::Result {
        match self {
            Failure::Usage { wrong, expected } => write!(f, "{wrong}\n{expected}"),
            Failure::Refused {
                answer,
                place,
                meaning,
            } => {
                write!(f, "refused {}", answer.number())?;
                if let Some((part, place)) = place {
                    write!(f, " {part} {place}")?;
                }
                write!(f, ": {meaning}")
            }
            Failure::File { path, error } => write!(f, "{}: {error}", path.display()),
            Failure::Named {
                text,
                line,
                path,
                error,
            } => {
                let (text, path) = (text.display(), path.display());
                write!(f, "{text}: line {line}: {path}: {error}")
            }
            Failure::Scene { path, faults } => {
                let path = path.display();
                let lines: Vec<String> = faults.iter().map(|f| format!("{path}: {f}")).collect();
                f.write_str(&lines.join("\n"))
            }
            Failure::NoTake { path, why } => write!(f, "{}: no take: {why}", path.display()),
            Failure::Output(error) => write!(f, "standard output: {error}"),
        }
    }
}
