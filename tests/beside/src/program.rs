//! A program of the repository, run on an input as a user would.

use std::{
    env, fmt,
    io::{self, Write},
    path::PathBuf,
    process::{Command, Output, Stdio},
    thread,
};

use crate::tally::Tally;

pub struct Program {
    path: PathBuf,
    pub runs: u64,
}

impl Program {
    pub fn new(name: &str) -> Self {
        let root = env::var_os("NUQSILLAY_ROOT").unwrap_or_default();

        Self {
            path: PathBuf::from(root).join("target/bin").join(name),
            runs: 0,
        }
    }

    /// Whether it was built.
    pub fn there(&self) -> bool {
        self.path.exists()
    }

    fn output(&self, input: &[u8]) -> io::Result<Output> {
        let mut child = Command::new(&self.path)
            .stdin(Stdio::piped())
            .stdout(Stdio::piped())
            .stderr(Stdio::piped())
            .spawn()?;
        let mut stdin = child.stdin.take().unwrap();

        thread::scope(|scope| {
            // The program may end before it has read everything.
            scope.spawn(move || stdin.write_all(input).ok());
            child.wait_with_output()
        })
    }

    /// Compares what it prints of an input: this text, and nothing on standard error.
    pub fn compare(&mut self, tally: &mut Tally, input: &[u8], right: &str) {
        self.runs += 1;
        let ours = self.output(input);

        let same = ours.as_ref().is_ok_and(|ours| {
            ours.status.success() && ours.stderr.is_empty() && ours.stdout == right.as_bytes()
        });

        tally.judge(same, || {
            let program = self.path.display();
            match ours {
                Ok(ours) => format!("{program}: {ours:?}, expected {right:?}; {}", hex(input)),
                Err(e) => format!("{program}: {e}"),
            }
        });
    }
}

impl Program {
    /// Compares what it writes of an input to standard output and to standard error. How it ends is asked only
    /// where nothing is to stand on standard error.
    pub fn compare_both(&mut self, tally: &mut Tally, input: &[u8], out: &[u8], err: &[u8]) {
        self.runs += 1;
        let ours = self.output(input);

        let same = ours.as_ref().is_ok_and(|ours| {
            ours.stdout == out && ours.stderr == err && (ours.status.success() || !err.is_empty())
        });

        tally.judge(same, || {
            let program = self.path.display();
            match ours {
                Ok(ours) => format!(
                    "{program}: {}, \"{}\" and \"{}\", expected \"{}\" and \"{}\"; {}",
                    ours.status,
                    ours.stdout.escape_ascii(),
                    ours.stderr.escape_ascii(),
                    out.escape_ascii(),
                    err.escape_ascii(),
                    hex(input)
                ),
                Err(e) => format!("{program}: {e}"),
            }
        });
    }
}

impl fmt::Display for Program {
    fn fmt(&self, f: &mut fmt::Formatter<'_>) -> fmt::Result {
        let name = self.path.file_name().unwrap_or_default().display();

        match self.there() {
            true => write!(f, "{} inputs through the program {name}", self.runs),
            false => write!(f, "no program {name}"),
        }
    }
}

/// The first bytes of an input.
pub fn hex(bytes: &[u8]) -> String {
    let shown: String = bytes.iter().take(400).map(|b| format!("{b:02x}")).collect();
    format!("an input of {} bytes {shown}", bytes.len())
}

/// Writes a gate program's stored inputs, and what it is to print of them, to data/ and stdout of
/// the folder LIST_OUT. `most` bytes are read of an input; `print` tells what is printed of those.
/// The last line is of a folder, which cannot be read.
pub fn write_stored(
    inputs: Vec<(&str, Vec<u8>)>,
    most: usize,
    print: impl Fn(&[u8]) -> String,
) -> io::Result<()> {
    let folder = env::var_os("LIST_OUT").ok_or_else(|| io::Error::other("LIST_OUT is not set"))?;
    let folder = PathBuf::from(folder);
    let mut printed = String::new();

    std::fs::create_dir_all(folder.join("data"))?;

    for (name, bytes) in inputs {
        let (read, left) = bytes.split_at(bytes.len().min(most));
        printed += &format!("{name}\n{}", print(read));

        if !left.is_empty() {
            printed += &format!("{} not read\n", left.len());
        }

        std::fs::write(folder.join("data").join(name), &bytes)?;
    }

    printed += ".\nfailed\n";
    std::fs::write(folder.join("stdout"), printed)
}
