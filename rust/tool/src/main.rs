//! `lacrumont`: plays EMF bitmap records onto a sheet and takes plays back.

#![forbid(unsafe_code)]

use std::process::ExitCode;

fn main() -> ExitCode {
    ExitCode::from(lacrumont_tool::commands::run(std::env::args_os().skip(1).collect()))
}
