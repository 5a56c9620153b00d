//! Help, and wrong use.

use crate::tools::plus;
use std::ffi::OsStr;
use std::os::unix::ffi::OsStrExt;

/// Each command with its arguments, and its options last if it has some.
const COMMANDS: [(&str, &[&str]); 13] = [
    ("forecast", &["FILE", "[START]", "[PRESCALE]"]),
    ("list", &["FILE", "[START]", "[--asm]"]),
    ("read", &["TEXT", "OUT"]),
    ("mend", &["WORDS", "OUT"]),
    ("scene", &["TEXT", "OUT"]),
    ("run", &["FILE", "[--take OUT]", "[--table FILE]"]),
    ("take", &["RECORDS", "OUT", "[COMMENT]"]),
    ("records", &["TAKE"]),
    (
        "play",
        &["RAM", "STORE", "TAKE", "[AFTER]", "[--table FILE]"],
    ),
    ("frame", &["FILE", "OUT.png"]),
    ("map", &["FILE", "OUT.png"]),
    ("export", &["FILE", "OUT", "[--asm]"]),
    ("install", &["PREFIX"]),
];

const OVERVIEW: &str = "\
usage: plus COMMAND ...

  forecast FILE [START] [PRESCALE]       how long a sound list plays
  list FILE [START] [--asm]              a sound list as text, a line a word
  read TEXT OUT                          the words of such a text, into a file
  mend WORDS OUT                         the words of an old sound list, mended
  scene TEXT OUT                         a scene, made from text
  run FILE [--take OUT] [--table FILE]   what each record of a scene answers
  take RECORDS OUT [COMMENT]             a take, that is calls with their lines
  records TAKE                           the records of a take
  play RAM STORE TAKE [AFTER] [--table FILE]
                                         the chip that a take leads to
  frame FILE OUT.png                     a picture of the frame after a scene
  map FILE OUT.png                       a picture of the lists after a scene
  export FILE OUT [--asm]                what the registers hold after a scene
  install PREFIX                         header, libraries, manual, this program
  help [COMMAND]                         this, or all about one command
  --version                              the version
";

fn usage(command: &str, arguments: &[&str]) -> String {
    format!("usage: plus {command} {}\n", arguments.join(" "))
}

#[test]
fn help_on_all() {
    for words in [&["help"][..], &["--help"], &["-h"], &["help", "help"]] {
        let ran = plus(words);
        assert_eq!((ran.status, &*ran.err), (Some(0), ""));
        assert!(ran.out.starts_with(&format!("{OVERVIEW}\nExit status: ")));
        assert!(ran.out.lines().all(|line| line.len() <= 80), "{}", ran.out);
    }
}

#[test]
fn help_on_each_command() {
    for (command, arguments) in COMMANDS {
        let ran = plus(["help", command]);
        assert_eq!((ran.status, &*ran.err), (Some(0), ""));
        assert!(
            ran.out.starts_with(&usage(command, arguments)),
            "{}",
            ran.out
        );
        assert!(ran.out.lines().count() > 4, "{}", ran.out);
        assert!(ran.out.lines().all(|line| line.len() <= 80), "{}", ran.out);
        for words in [[command, "--help"], [command, "-h"], ["--help", command]] {
            plus(words).prints(&ran.out);
        }
    }
}

#[test]
fn no_command() {
    plus::<&str>([]).fails(2, &format!("plus: a command is missing\n{OVERVIEW}"));
}

#[test]
fn an_unknown_command() {
    for words in [&["forcast", "x"][..], &["help", "forcast"]] {
        let said = format!("plus: there is no command 'forcast'\n{OVERVIEW}");
        plus(words).fails(2, &said);
    }
    let said = format!("plus: there is no command '--verbose'\n{OVERVIEW}");
    plus(["--verbose"]).fails(2, &said);
}

#[test]
fn missing_and_extra_arguments() {
    for (command, arguments) in COMMANDS {
        let expected = usage(command, arguments);
        let fails = |words: &[&str], wrong: &str| {
            let words = [&[command], words].concat();
            let said =
                format!("plus: {command}: {wrong}\n{expected}`plus help {command}` says more\n");
            plus(words).fails(2, &said);
        };
        for (given, argument) in arguments.iter().enumerate() {
            if !argument.starts_with('[') {
                fails(&["x"; 4][..given], &format!("{argument} is missing"));
            }
        }
        let option = |argument: &&&str| argument.starts_with("[--");
        let mut words = vec!["x"; arguments.len() - arguments.iter().filter(option).count()];
        words.push("more");
        fails(&words, "'more' is one argument too many");
        fails(&["--fast"], "there is no option '--fast'");
    }
    let said = "plus: 'more' is one argument too many\nusage: plus help [COMMAND]\n";
    plus(["help", "run", "more"]).fails(2, said);
}

/// A name that isn't text is named as well as can be.
#[test]
fn a_name_that_is_no_text() {
    let name = OsStr::from_bytes(b"no\xFFname");
    let said = "no\u{FFFD}name: No such file or directory (os error 2)\n";
    plus([OsStr::new("run"), name]).fails(1, said);
    let ran = plus([name]);
    assert_eq!(ran.status, Some(2));
    assert!(ran
        .err
        .starts_with("plus: there is no command 'no\u{FFFD}name'\n"));
}
