//! Instructions counted by valgrind's callgrind. They do not depend on the machine's load.

use std::process::Command;

/// Valgrind, set to count.
fn callgrind() -> Command {
    let mut valgrind = Command::new("valgrind");
    valgrind.args(["--tool=callgrind", "--callgrind-out-file=/dev/null"]);
    valgrind
}

/// Whether valgrind is at hand.
pub fn at_hand() -> bool {
    callgrind().arg("true").output().is_ok_and(|output| output.status.success())
}

/// The instructions of one call of this function, and of what it calls, in this program with these arguments.
pub fn instructions(function: &str, arguments: &[&str]) -> Result<u64, String> {
    let program = std::env::current_exe().map_err(|e| e.to_string())?;
    let output = callgrind()
        .arg(format!("--toggle-collect={function}"))
        .arg(program)
        .args(arguments)
        .output()
        .map_err(|e| format!("valgrind: {e}"))?;
    let said = String::from_utf8_lossy(&output.stderr);
    let counted = said.lines().find_map(|line| line.split_once("Collected : ")?.1.trim().parse().ok());
    match counted {
        Some(n) if output.status.success() && n > 0 => Ok(n),
        _ => Err(format!("valgrind counts no instructions of {function}: {said}")),
    }
}
