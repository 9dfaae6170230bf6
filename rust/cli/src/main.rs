//! The command `zolvortug`: the proved store over image files.
use std::process::ExitCode;

fn main() -> ExitCode {
    let words = std::env::args_os().skip(1).collect();
    let status = std::panic::catch_unwind(|| zolvortug_cli::run(words));
    ExitCode::from(status.unwrap_or(zolvortug_cli::BROKEN))
}
