//! The cases run in a second process, so that one in which the library
//! ends the process or never comes back is still named.

use crate::command;
use std::io::{BufRead, BufReader, Write};
use std::process::{Child, ChildStdout, Command, Stdio};
use std::sync::mpsc::{Receiver, RecvTimeoutError, channel};
use std::thread;
use std::time::Duration;

/// The option that the second process is given.
pub const WATCHED: &str = "--watched";

/// Begins a line that names the case which is about to run.
const MARK: &str = "@";

/// Longer than any case takes.
const PATIENCE: Duration = Duration::from_secs(60);

pub fn tell_case(case: u64) {
    println!("{MARK}{case}");
    std::io::stdout()
        .flush()
        .expect("the watching process reads");
}

/// Runs this program again, watched; gives whether everything held.
pub fn watch(seed: u64) -> bool {
    let own = std::env::current_exe().expect("the program's own path");
    let mut child = Command::new(own)
        .arg(WATCHED)
        .args(std::env::args().skip(1))
        .stdout(Stdio::piped())
        .spawn()
        .expect("the program starts again");
    let lines = lines(child.stdout.take().expect("its output is ours"));
    let last = follow(&lines, &mut child, seed);
    let status = child.wait().expect("the process ends");
    match status.code() {
        Some(0) => true,
        Some(1) => false,
        _ => {
            println!("the process ended in the last case begun ({status})");
            println!("to run it alone: {}", command(seed, last));
            false
        }
    }
}

fn lines(output: ChildStdout) -> Receiver<String> {
    let (send, receive) = channel();
    thread::spawn(move || {
        for line in BufReader::new(output).lines().map_while(Result::ok) {
            if send.send(line).is_err() {
                break;
            }
        }
    });
    receive
}

/// Prints what the process says; gives the last case that it began.
fn follow(lines: &Receiver<String>, child: &mut Child, seed: u64) -> u64 {
    let mut last = 0;
    loop {
        match lines.recv_timeout(PATIENCE) {
            Ok(line) => match line.strip_prefix(MARK).and_then(|case| case.parse().ok()) {
                Some(case) => last = case,
                None => println!("{line}"),
            },
            Err(RecvTimeoutError::Disconnected) => return last,
            Err(RecvTimeoutError::Timeout) => {
                println!("case {last} of seed {seed} does not come back");
                child.kill().expect("the process can be ended");
                return last;
            }
        }
    }
}
