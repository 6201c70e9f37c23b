//! `card`: see `card --help`.

use card::arguments::Arguments;
use card::commands::run;
use card::error::Error;
use card::files::{print, say};
use card::show_json::refused;
use std::process::ExitCode;

fn main() -> ExitCode {
    let given = std::env::args_os().skip(1).map(|argument| argument.into_string());
    let Ok(given) = given.collect::<Result<Vec<String>, _>>() else {
        say("card: an argument is no text\n");
        return ExitCode::from(3);
    };
    let json = given.iter().any(|argument| argument == "--json");
    let status = Arguments::parse(&given).and_then(|arguments| run(&arguments));
    ExitCode::from(status.unwrap_or_else(|error| tell(&error, json)))
}

/// Tells an error: on standard error, and a refusal as JSON on standard output where that is asked for.
fn tell(error: &Error, json: bool) -> u8 {
    match error {
        Error::Refused(told) if json => match print(refused(told).as_bytes()) {
            Ok(()) => error.status(),
            Err(second) => tell(&second, false),
        },
        _ => {
            say(&format!("{error}\n"));
            error.status()
        }
    }
}
