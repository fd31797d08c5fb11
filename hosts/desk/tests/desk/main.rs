//! Runs the program and compares whole outputs: every subcommand on examples, every refusal, every spreadsheet's sheet, every format,
//! folders, options, what is written, and damaged files. Reasons, repairs, ways and rigs are compared with plain searches.

mod answers;
mod building;
mod damage;
mod endings;
mod folders;
mod formats;
mod options;
mod outputs;
mod pins;
mod plain;
mod random;
mod reasons;
mod refusals;
mod repairs;
mod rigs;
mod run;
mod serving;
mod sheets;
mod ways;
mod workbooks;
