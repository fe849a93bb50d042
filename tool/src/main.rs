//! `osek`: the bench tool over the proved OSEK reference. What is right comes from the library alone; here are text,
//! words, pictures and files.
//!
//! Words of document 01 are in [`words`], the places of numbers in [`layout`], the text form in [`text`], each command
//! in [`commands`].

mod choice;
mod commands;
mod compare;
mod coverage;
mod explain;
mod failure;
mod fields;
mod history;
mod input;
mod inspect;
mod json;
mod layout;
mod manual;
mod names;
mod oil;
mod options;
mod output;
mod power;
mod progress;
mod record;
mod reference;
mod text;
mod timeline;
mod unit;
mod verdict;
mod why;
mod words;

use std::process::ExitCode;

use failure::{exit_code, Ending, Failure};
use options::Options;

fn main() -> ExitCode {
    let arguments: Result<Vec<String>, _> =
        std::env::args_os().skip(1).map(|argument| argument.into_string()).collect();
    let result = match arguments {
        Ok(arguments) => dispatch(&arguments),
        Err(argument) => Err(Failure::Usage(format!("an argument is not UTF-8: {}", argument.display()))),
    };
    exit_code(result)
}

fn dispatch(arguments: &[String]) -> Result<Ending, Failure> {
    let Some((name, rest)) = arguments.split_first() else {
        return Err(Failure::Usage(format!("a command is missing\n\n{}", commands::overview())));
    };
    let asks_help = |argument: &String| argument == "--help" || argument == "-h";
    match name.as_str() {
        "--help" | "-h" => return show(&commands::overview()),
        "help" => {
            return match rest {
                [] => show(&commands::overview()),
                [name, ..] => show(&commands::find(name)?.help()),
            }
        }
        compare::library::CALL => return compare::library::call(rest),
        "--man" => return show(&manual::page()),
        "--completion" => return show(&manual::completion()),
        "--version" => return show(&format!("osek {}\n", reference::version())),
        _ => {}
    }
    let command = commands::find(name)?;
    if rest.iter().take_while(|argument| *argument != "--").any(asks_help) {
        return show(&command.help());
    }
    let options = Options::parse(command.name, &command.accepts, rest)?;
    (command.run)(&options)
}

fn show(text: &str) -> Result<Ending, Failure> {
    output::print(text)?;
    Ok(Ending::Done)
}
