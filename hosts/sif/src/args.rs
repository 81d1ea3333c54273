//! The command line.

use std::ffi::OsString;

pub const HELP: &str = "\
Usage: sif COMMAND [OPTION].. FILE..

Reads sif scripts: ASCII, at most 65,535 bytes each. The file - is standard input.

Commands:
  check    report the errors of scripts
             --machine          document 01's numbers instead of messages
             --all              all errors of a file, not only the first 100
  fmt      print the canonical text of scripts
             --check            print the names of files that are not in canonical form
             --write            replace each file by its canonical text, once the text was read back
                                and has the same tree
             --drop-comments    with --write: also where comments are lost by it
  tokens   print the tokens of scripts, numbers with their values
             --machine          document 01's numbers instead of names
  tree     print the trees of scripts
             --json             as JSON, an object for each file
  list     print the listing of document 01: counts and flag, the words of the tree, errors

Options:
  -h, --help       this text
  -V, --version    the version
  --               what follows are files

Lines and columns for people count from 1. Document 01 counts lines from 1 and columns from 0; so do
--machine, --json and list.

Exit status: 0 if there is nothing to report, 1 if a script has errors or is not in the form asked for, 2 if
the command line is wrong or a file is not a script that can be read.
";

const VERSION: &str = concat!("sif ", env!("CARGO_PKG_VERSION"), "\n");

/// What is to be done, with which files.
#[derive(Debug, PartialEq)]
pub struct Asked {
    pub action: Action,
    pub files: Vec<OsString>,
}

#[derive(Debug, PartialEq)]
pub enum Action {
    Help(&'static str),
    Check { machine: bool, all: bool },
    Fmt(Mode),
    Tokens { machine: bool },
    Tree { json: bool },
    List,
}

/// What becomes of a canonical text.
#[derive(Clone, Copy, Debug, PartialEq)]
pub enum Mode {
    Print,
    Check,
    Write { drop_comments: bool },
}

/// The options that were given, by name.
struct Options(Vec<String>);

impl Options {
    /// Whether an option is there; it is taken out.
    fn take(&mut self, name: &str) -> bool {
        let before = self.0.len();
        self.0.retain(|option| option != name);
        self.0.len() < before
    }
}

pub fn parse(words: impl Iterator<Item = OsString>) -> Result<Asked, String> {
    let (mut options, mut files) = (Options(Vec::new()), Vec::new());
    let mut only_files = false;
    let mut command = None;
    for word in words {
        match word.to_str() {
            Some("--") if !only_files => only_files = true,
            Some(option) if !only_files && option.len() > 1 && option.starts_with('-') => {
                options.0.push(option.to_string())
            }
            Some(name) if command.is_none() => command = Some(name.to_string()),
            None if command.is_none() => return Err("the command is not text".to_string()),
            _ => files.push(word),
        }
    }
    let help = options.take("--help") | options.take("-h");
    if help || command.as_deref() == Some("help") {
        return Ok(Asked { action: Action::Help(HELP), files: Vec::new() });
    }
    if options.take("--version") | options.take("-V") {
        return Ok(Asked { action: Action::Help(VERSION), files: Vec::new() });
    }
    let command = command.ok_or("no command given")?;
    let action = action(&command, &mut options)?;
    if let Some(unknown) = options.0.first() {
        return Err(format!("`sif {command}` has no option {unknown}"));
    }
    if files.is_empty() {
        return Err("no file given; - is standard input".to_string());
    }
    let writes = matches!(action, Action::Fmt(Mode::Write { .. }));
    if writes && files.iter().any(|file| file == "-") {
        return Err("standard input cannot be replaced; leave out --write".to_string());
    }
    Ok(Asked { action, files })
}

fn action(command: &str, options: &mut Options) -> Result<Action, String> {
    Ok(match command {
        "check" => Action::Check { machine: options.take("--machine"), all: options.take("--all") },
        "fmt" => Action::Fmt(mode(options)?),
        "tokens" => Action::Tokens { machine: options.take("--machine") },
        "tree" => Action::Tree { json: options.take("--json") },
        "list" => Action::List,
        unknown => return Err(format!("there is no command {unknown}")),
    })
}

fn mode(options: &mut Options) -> Result<Mode, String> {
    let given = ["--check", "--write", "--drop-comments"].map(|option| options.take(option));
    match given {
        [false, false, false] => Ok(Mode::Print),
        [true, false, false] => Ok(Mode::Check),
        [false, true, drop_comments] => Ok(Mode::Write { drop_comments }),
        [true, true, _] => Err("--check and --write exclude each other".to_string()),
        [_, false, true] => Err("--drop-comments goes with --write".to_string()),
    }
}

#[cfg(test)]
mod tests {
    use super::*;

    fn parsed(line: &str) -> Result<Asked, String> {
        parse(line.split_whitespace().map(OsString::from))
    }

    #[test]
    fn options_stand_anywhere_and_end_at_two_dashes() {
        let files = vec![OsString::from("-"), OsString::from("--machine")];
        let asked = Asked { action: Action::Check { machine: true, all: false }, files };
        assert_eq!(parsed("--machine check - -- --machine"), Ok(asked));
    }

    #[test]
    fn wrong_lines_say_why() {
        let wrong = [
            ("", "no command given"),
            ("check", "no file given; - is standard input"),
            ("check --json a", "`sif check` has no option --json"),
            ("frobnicate a", "there is no command frobnicate"),
            ("fmt --check --write a", "--check and --write exclude each other"),
            ("fmt --drop-comments a", "--drop-comments goes with --write"),
            ("fmt --write -", "standard input cannot be replaced; leave out --write"),
        ];
        for (line, why) in wrong {
            assert_eq!(parsed(line), Err(why.to_string()));
        }
    }
}
