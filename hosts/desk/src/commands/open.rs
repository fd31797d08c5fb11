//! The page: it is served until it has been closed for a minute.

use crate::arguments::{OpenArguments, Options};
use crate::print;
use crate::server::Server;
use crate::status::Status;
use crate::words::error_words;
use std::process::{Command, Stdio};
use std::thread;

pub fn run(arguments: &OpenArguments, options: &Options) -> Status {
    let server = match Server::new(arguments.port) {
        Ok(server) => server,
        Err(error) => {
            eprintln!("tickdrizzle: listening on 127.0.0.1 failed: {}", error_words(&error));
            return Status::Failed;
        }
    };
    let address = server.address();
    let status = print(said(&address, options).as_bytes(), Status::Found);
    if status != Status::Found {
        return status;
    }
    if !arguments.no_browser {
        show(&server.once());
    }
    server.serve();
    Status::Found
}

fn said(address: &str, options: &Options) -> String {
    if options.json {
        serde_json::json!({ "shape": 1, "command": "open", "address": address }).to_string() + "\n"
    } else if options.quiet {
        format!("{address}\n")
    } else {
        format!("The page is at {address}\nIt ends a minute after its page is closed, or by Ctrl-C.\n")
    }
}

/// Opens the browser, where the computer knows which; else the address is there to be copied.
fn show(address: &str) {
    let mut command = Command::new("xdg-open");
    command.arg(address).stdin(Stdio::null()).stdout(Stdio::null()).stderr(Stdio::null());
    if let Ok(mut child) = command.spawn() {
        thread::spawn(move || child.wait());
    }
}
