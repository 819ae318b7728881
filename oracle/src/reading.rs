//! YAML readers as processes: bytes go in, events or a rejection come out.

use crate::events::{self, Event};
use std::io::{self, BufRead, BufReader, Write};
use std::process::{Child, ChildStdin, ChildStdout, Command, Stdio};

/// What a reader made of some bytes: what it saw, or nothing where it rejected them.
pub type Reading = Option<Vec<Event>>;

pub struct Reader {
    pub name: &'static str,
    work: Work,
}

enum Work {
    /// One process for each text, which is given on its standard input.
    EachTime(&'static str, &'static [&'static str]),
    /// One process for all, as src/readers has them.
    Serving(Child, ChildStdin, BufReader<ChildStdout>),
}

pub const NAMES: [&str; 4] = ["fy-tool", "node-yaml", "PyYAML", "ruamel.yaml"];

/// A reader by its name, if it is at hand. `folder` is src/readers.
pub fn find(name: &'static str, folder: &str) -> Option<Reader> {
    let work = match name {
        "fy-tool" => {
            let asked = Command::new("fy-tool").arg("--version").output();
            if !asked.is_ok_and(|answer| answer.status.success()) {
                return None;
            }
            Work::EachTime("fy-tool", &["--testsuite", "-"])
        }
        "node-yaml" => serving("node", &[&format!("{folder}/node.js")])?,
        "PyYAML" => serving("python3", &[&format!("{folder}/python.py"), "yaml"])?,
        _ => serving("python3", &[&format!("{folder}/python.py"), "ruamel.yaml"])?,
    };
    let mut reader = Reader { name, work };
    // One that cannot find its library ends at once.
    let seen = reader.read(b"a: b\n").ok()?;
    seen.is_some().then_some(reader)
}

fn serving(program: &str, arguments: &[&str]) -> Option<Work> {
    let mut child = Command::new(program)
        .args(arguments)
        .stdin(Stdio::piped())
        .stdout(Stdio::piped())
        .stderr(Stdio::null())
        .spawn()
        .ok()?;
    let (input, output) = (child.stdin.take()?, child.stdout.take()?);
    Some(Work::Serving(child, input, BufReader::new(output)))
}

impl Reader {
    pub fn read(&mut self, text: &[u8]) -> io::Result<Reading> {
        let lines = match &mut self.work {
            Work::EachTime(program, arguments) => each_time(program, arguments, text)?,
            Work::Serving(_, input, output) => served(input, output, text)?,
        };
        let seen = lines.map(|lines| events::of_lines(&lines));
        match seen {
            Some(None) => Err(io::Error::other("The reader's lines are not understood.")),
            Some(Some(events)) => Ok(Some(events)),
            None => Ok(None),
        }
    }
}

impl Drop for Reader {
    fn drop(&mut self) {
        if let Work::Serving(child, ..) = &mut self.work {
            // It may have ended already.
            let _ = child.kill();
            let _ = child.wait();
        }
    }
}

fn each_time(program: &str, arguments: &[&str], text: &[u8]) -> io::Result<Option<Vec<String>>> {
    let mut child = Command::new(program)
        .args(arguments)
        .stdin(Stdio::piped())
        .stdout(Stdio::piped())
        .stderr(Stdio::null())
        .spawn()?;
    // A reader that rejects early need not read all of it.
    let _ = child.stdin.take().expect("a pipe").write_all(text);
    let output = child.wait_with_output()?;
    if !output.status.success() {
        return Ok(None);
    }
    let said = String::from_utf8_lossy(&output.stdout).into_owned();
    Ok(Some(
        said.split_terminator('\n').map(str::to_owned).collect(),
    ))
}

fn served(
    input: &mut ChildStdin,
    output: &mut BufReader<ChildStdout>,
    text: &[u8],
) -> io::Result<Option<Vec<String>>> {
    input.write_all(format!("{}\n", text.len()).as_bytes())?;
    input.write_all(text)?;
    input.flush()?;
    let mut lines = Vec::new();
    loop {
        let mut line = Vec::new();
        if output.read_until(b'\n', &mut line)? == 0 {
            return Err(io::Error::other("The reader ended."));
        }
        line.pop();
        let line = String::from_utf8_lossy(&line).into_owned();
        if line == "." {
            return Ok(Some(lines));
        }
        if line.starts_with('!') {
            lines.clear();
            output.read_until(b'\n', &mut Vec::new())?;
            return Ok(None);
        }
        lines.push(line);
    }
}
