//! Moves a show's cues to another rig: the command for operators and riggers.

mod answer;
mod arguments;
mod asked;
mod building;
mod commands;
mod files;
mod input;
mod names;
mod output;
mod parts;
mod patience;
mod pins;
mod progress;
mod reader;
mod repair;
mod searcher;
mod server;
mod sheet;
mod signals;
mod status;
mod views;
mod words;

use arguments::{Arguments, Color, Command, Options};
use clap::{CommandFactory, Parser};
use commands::Done;
use status::Status;
use std::io::{self, ErrorKind, IsTerminal, Write};
use std::process::ExitCode;
use views::text::Manner;

fn main() -> ExitCode {
    let status = match Arguments::try_parse() {
        Ok(Arguments { command: Command::Completions(arguments), .. }) => completions(arguments.shell),
        Ok(Arguments { command: Command::Open(arguments), options }) => commands::open::run(&arguments, &options),
        Ok(Arguments { command: Command::Ask, .. }) => ask(),
        Ok(Arguments { command: Command::SearchRigs, .. }) => {
            searcher::run().map_or(Status::Failed, |()| Status::Found)
        }
        Ok(arguments) => finish(&commands::run(&arguments.command, &arguments.options), &arguments),
        Err(error) if error.use_stderr() => {
            let _ = error.print();
            Status::Usage
        }
        Err(help) => print(help.render().to_string().as_bytes(), Status::Found),
    };
    ExitCode::from(status as u8)
}

/// What completes the arguments, without the commands that people do not give.
fn completions(shell: clap_complete::Shell) -> Status {
    let all = Arguments::command();
    let shown = all.get_subcommands().filter(|command| !command.is_hide_set()).cloned();
    let mut offered = clap::Command::new("tickdrizzle")
        .version(env!("CARGO_PKG_VERSION"))
        .args(all.get_arguments().cloned())
        .subcommands(shown);
    let mut script = Vec::new();
    clap_complete::generate(shell, &mut offered, "tickdrizzle", &mut script);
    print(&script, Status::Found)
}

/// Answers a question of the page.
fn ask() -> Status {
    match asked::run() {
        Ok(text) => print(text.as_bytes(), Status::Found),
        Err(why) => {
            let _ = writeln!(io::stderr(), "tickdrizzle: {why}");
            Status::Usage
        }
    }
}

/// Says what there is to say; how the program ends. Why a command failed is said on standard error.
fn finish(done: &Done, arguments: &Arguments) -> Status {
    let (text, errors) = printed(done, arguments);
    let status = print(&text, done.answer.status);
    let _ = io::stderr().write_all(errors.as_bytes());
    status
}

/// What goes to standard output and to standard error.
fn printed(done: &Done, arguments: &Arguments) -> (Vec<u8>, String) {
    let (answer, options) = (&done.answer, &arguments.options);
    let is_csv = matches!(&arguments.command, Command::Move(arguments) if arguments.csv)
        || matches!(&arguments.command, Command::Classes(arguments) if arguments.csv)
        || matches!(&arguments.command, Command::Rigs(arguments) if arguments.csv);
    let failed = matches!(answer.status, Status::Failed | Status::Usage);
    let mut errors = String::new();
    let text = match &done.standard {
        Some(bytes) if !failed => bytes.clone(),
        _ if options.json => views::json(answer).into_bytes(),
        _ if is_csv => {
            let hints = answer.hints.iter().filter(|_| !options.quiet);
            errors.extend(hints.map(|hint| format!("tickdrizzle: {hint}\n")));
            views::records::records(answer).into_bytes()
        }
        _ => views::text::text(answer, manner(options)).into_bytes(),
    };
    if failed && !options.json {
        errors += &format!("tickdrizzle: {}\n", answer.says);
    }
    (text, errors)
}

/// Whether the answer is short, and whether it has colours: on a terminal, where `NO_COLOR` is not set, or as `--color` says.
fn manner(options: &Options) -> Manner {
    let colours = match options.color {
        Color::Always => true,
        Color::Never => false,
        Color::Auto => io::stdout().is_terminal() && std::env::var_os("NO_COLOR").is_none_or(|value| value.is_empty()),
    };
    Manner { quiet: options.quiet, colours }
}

/// Writes to standard output. A failed write is a failure whatever was found, but a reader that has read enough is none.
pub fn print(text: &[u8], status: Status) -> Status {
    let mut output = io::stdout().lock();
    let written = if signals::is_output_closed() && !text.is_empty() {
        Err(io::Error::other("standard output is closed"))
    } else {
        output.write_all(text).and_then(|()| output.flush())
    };
    match written {
        Ok(()) => status,
        Err(error) if error.kind() == ErrorKind::BrokenPipe => status,
        Err(error) => {
            let _ = writeln!(io::stderr(), "tickdrizzle: writing the answer failed: {}", words::error_words(&error));
            Status::Failed
        }
    }
}
