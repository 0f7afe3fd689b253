//! The library, called through the program `caller` that links it.

use crate::input::{Input, Left, Numbers, Outcome};
use std::io::{BufReader, BufWriter, Read, Result, Write};
use std::process::{Child, ChildStdin, ChildStdout, Command, Stdio};

/// A running caller.
pub struct Library {
    command: Vec<String>,
    child: Child,
    to: BufWriter<ChildStdin>,
    from: BufReader<ChildStdout>,
}

/// A program with its words, its input and output piped.
pub fn piped(command: &[String]) -> Command {
    let mut piped = Command::new(&command[0]);
    piped.args(&command[1..]).stdin(Stdio::piped()).stdout(Stdio::piped());
    piped
}

impl Library {
    /// Starts the caller.
    pub fn start(command: &[String]) -> Result<Library> {
        let mut child = piped(command).spawn()?;
        let to = BufWriter::new(child.stdin.take().expect("piped"));
        let from = BufReader::new(child.stdout.take().expect("piped"));
        Ok(Library { command: command.to_vec(), child, to, from })
    }

    /// Every entry once. An error is the end of the caller, by a signal where the library touched what it was not lent.
    pub fn call(&mut self, input: &Input) -> Result<Outcome> {
        let behind = [input.share.len(), input.sheet_len];
        let counts = [input.file.len()].into_iter().chain(input.runs.iter().map(Vec::len)).chain(behind);
        for number in [input.place, input.fill].into_iter().chain(counts.map(|count| count as u32)) {
            self.to.write_all(&number.to_le_bytes())?;
        }
        self.to.write_all(&input.file)?;
        for number in input.runs.iter().flatten() {
            self.to.write_all(&number.to_le_bytes())?;
        }
        self.to.write_all(&input.share)?;
        self.to.flush()?;
        let mut left = || self.left(input.sheet_len);
        Ok(Outcome { shared: left()?, five: left()?, three: left()? })
    }

    /// What both entries of a form left behind.
    fn left(&mut self, sheet_len: usize) -> Result<Left> {
        let judged = (self.number()?, self.numbers()?);
        let written = (self.number()?, self.numbers()?);
        let mut sheet = vec![0; sheet_len];
        self.from.read_exact(&mut sheet)?;
        Ok(Left { judged, written, sheet })
    }

    fn number(&mut self) -> Result<u64> {
        let mut bytes = [0; 8];
        self.from.read_exact(&mut bytes)?;
        Ok(u64::from_le_bytes(bytes))
    }

    fn numbers(&mut self) -> Result<Numbers> {
        Ok([self.number()?, self.number()?, self.number()?, self.number()?])
    }

    /// No more calls: whether the caller ended well.
    pub fn end(self) -> Result<bool> {
        let Library { mut child, to, .. } = self;
        drop(to);
        Ok(child.wait()?.success())
    }

    /// How the caller ended, and a new one in its place.
    pub fn again(&mut self) -> Result<String> {
        let status = self.child.wait()?;
        *self = Library::start(&self.command.clone())?;
        Ok(status.to_string())
    }
}
