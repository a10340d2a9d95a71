//! Lines on standard output and standard error.
use crate::Ended;
use std::io::{self, BufWriter, ErrorKind, Stdout, Write};
use std::path::Path;

pub struct Output {
    out: BufWriter<Stdout>,
}

impl Output {
    pub fn new() -> Output {
        Output { out: BufWriter::new(io::stdout()) }
    }

    pub fn line(&mut self, line: &str) {
        let written = writeln!(self.out, "{line}");
        self.judge(written);
    }

    pub fn part(&mut self, text: &str) {
        let written = write!(self.out, "{text}").and_then(|()| self.out.flush());
        self.judge(written);
    }

    pub fn bytes(&mut self, bytes: &[u8]) {
        let written = self.out.write_all(bytes);
        self.judge(written);
    }

    pub fn flush(&mut self) {
        let written = self.out.flush();
        self.judge(written);
    }

    /// Who reads no more is told no more; another error is said.
    fn judge(&self, written: io::Result<()>) {
        if let Err(error) = written {
            if error.kind() != ErrorKind::BrokenPipe {
                complain(Path::new("standard output"), None, &crate::posted::plain(&error));
            }
            std::process::exit(Ended::Unreadable as i32);
        }
    }
}

/// One line on standard error: the file, the line where it is known, and what is wrong.
pub fn complain(name: &Path, line: Option<usize>, what: &str) {
    let name = if name == Path::new("-") { Path::new("standard input") } else { name };
    let place = line.map_or(name.display().to_string(), |line| format!("{}:{line}", name.display()));
    let _ = writeln!(io::stderr(), "mfrc531: {place}: {what}");
}
