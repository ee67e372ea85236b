//! Calls of the program.

use std::io::{ErrorKind, Read, Write};
use std::path::{Path, PathBuf};
use std::process::{Child, Command, Stdio};
use std::sync::mpsc;
use std::thread;
use std::time::{Duration, Instant};

/// A call that takes longer hangs.
const LONGEST: Duration = Duration::from_secs(60);

pub struct Program {
    path: PathBuf,
}

/// A call with what it read, how it ended and what it printed, to be shown where it fails a check.
#[derive(Clone)]
pub struct Call {
    pub variables: Vec<(&'static str, String)>,
    pub words: Vec<String>,
    pub script: String,
    pub status: i32,
    pub printed: String,
    pub took: Duration,
}

impl Call {
    pub fn shown(&self) -> String {
        let words = self.words.join(" ");
        let variables = self.variables.iter();
        let variables: String = variables
            .map(|(name, value)| format!("{name}='{value}' "))
            .collect();
        format!(
            "$ {variables}redolab {words}\n--- script\n{}\n--- status {}, printed\n{}",
            self.script, self.status, self.printed
        )
    }

    pub fn has_succeeded(&self) -> Result<(), String> {
        if self.status == 0 {
            Ok(())
        } else {
            let first = self.printed.lines().next().unwrap_or_default();
            Err(format!("status {}, {first}", self.status))
        }
    }

    /// Whether it ended with this status and printed this text.
    pub fn answers(&self, status: i32, text: &str) -> Result<(), String> {
        if self.status == status && self.printed == text {
            Ok(())
        } else {
            Err(format!("status {status} should come, and {text:?}"))
        }
    }
}

pub fn words_of(text: &str) -> Vec<String> {
    text.split_whitespace().map(str::to_string).collect()
}

impl Program {
    pub fn new(path: PathBuf) -> Program {
        Program { path }
    }

    /// Calls the program in this folder, with these variables of the environment.
    pub fn call(
        &self,
        folder: &Path,
        words: &[String],
        script: &str,
        variables: &[(&'static str, String)],
    ) -> Result<Call, String> {
        let start = Instant::now();
        let mut child = Command::new(&self.path)
            .args(words)
            .envs(variables.iter().map(|(name, value)| (name, value)))
            .current_dir(folder)
            .stdin(Stdio::piped())
            .stdout(Stdio::piped())
            .stderr(Stdio::null())
            .spawn()
            .map_err(|error| format!("{}: {error}", self.path.display()))?;
        if let Some(mut stdin) = child.stdin.take() {
            // a call that reads no script may have ended
            match stdin.write_all(script.as_bytes()) {
                Err(error) if error.kind() != ErrorKind::BrokenPipe => {
                    return Err(error.to_string());
                }
                _ => {}
            }
        }
        let printed = read_all(&mut child)?;
        let status = child.wait().map_err(|error| error.to_string())?;
        Ok(Call {
            variables: variables.to_vec(),
            words: words.to_vec(),
            script: script.to_string(),
            status: status.code().unwrap_or(-1),
            printed: String::from_utf8_lossy(&printed).into_owned(),
            took: start.elapsed(),
        })
    }
}

/// What the program prints until it ends. One that hangs is ended, and prints no more.
fn read_all(child: &mut Child) -> Result<Vec<u8>, String> {
    let mut stdout = child.stdout.take().ok_or("no standard output")?;
    let (sender, receiver) = mpsc::channel();
    let reader = thread::spawn(move || {
        let mut printed = Vec::new();
        let read = stdout.read_to_end(&mut printed);
        // who waits for it may have given up
        let _ = sender.send(());
        read.map(|_| printed)
    });
    if receiver.recv_timeout(LONGEST).is_err() {
        child.kill().map_err(|error| error.to_string())?;
    }
    reader.join().unwrap().map_err(|error| error.to_string())
}
