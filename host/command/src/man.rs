//! The manual page, made from the help texts.

use crate::help::{self, Entry};

/// `plus.1`.
pub fn page() -> String {
    let version = env!("CARGO_PKG_VERSION");
    let mut page = format!(
        "\
.TH PLUS 1 \"\" \"plus {version}\" \"The proved core of the Amstrad Plus chip\"
.SH NAME
plus \\- sound lists, scenes and takes on the proved core of the Amstrad Plus chip
.SH SYNOPSIS
"
    );
    for entry in help::entries() {
        page += &format!(".B plus {}\n.br\n", plain(entry.call));
    }
    page += ".SH COMMANDS\n";
    let commands = help::entries().filter(|entry| !entry.details.is_empty());
    commands.for_each(|entry| page += &section(entry));
    page + ".SH EXIT STATUS AND FILES\n" + &text(help::common())
}

/// A command: its call, what it does, and all that there is to know of it.
fn section(entry: Entry) -> String {
    let (call, about) = (plain(entry.call), plain(entry.about));
    let details = text(entry.details);
    format!(".SS {call}\n.I {about}\n.PP\n{details}")
}

/// Paragraphs; lines that begin with a blank stay as they are.
fn text(text: &str) -> String {
    let mut page = String::new();
    let mut as_it_is = false;
    for line in text.lines() {
        if line.starts_with(' ') != as_it_is && !line.is_empty() {
            as_it_is = !as_it_is;
            page += if as_it_is { ".EX\n" } else { ".EE\n" };
        }
        page += &match line {
            "" if as_it_is => "\n".to_string(),
            "" => ".PP\n".to_string(),
            line => bold(line) + "\n",
        };
    }
    if as_it_is {
        page += ".EE\n";
    }
    page
}

/// A line whose parts between backticks are bold.
fn bold(line: &str) -> String {
    let mut fonts = ["\\fR", "\\fB"].into_iter().cycle().skip(1);
    let mut parts = line.split('`').map(plain);
    let first = parts.next().unwrap_or_default();
    parts.fold(first, |line, part| {
        line + fonts.next().unwrap_or("") + &part
    })
}

/// Text in which nothing is a command of the formatter.
fn plain(text: &str) -> String {
    let text = text.replace('\\', "\\e").replace('-', "\\-");
    let text = text.replace('\'', "\\(aq").replace('"', "\\(dq");
    match text.starts_with('.') {
        true => format!("\\&{text}"),
        false => text,
    }
}
