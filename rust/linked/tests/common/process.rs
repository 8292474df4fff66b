//! A proved program as a process, and the inputs and outputs that it may meet.

use std::fs::{self, File};
use std::io::{PipeReader, Write};
use std::os::fd::{AsRawFd, OwnedFd};
use std::os::unix::fs::OpenOptionsExt;
use std::os::unix::net::UnixStream;
use std::path::{Path, PathBuf};
use std::process::{Child, Command, Output, Stdio};
use std::thread;
use std::time::Duration;

pub fn root() -> PathBuf {
    PathBuf::from(env!("CARGO_MANIFEST_DIR")).join("../..")
}

/// A program by its name.
pub struct Program(pub &'static str);

impl Program {
    fn path(&self) -> PathBuf {
        let path = root().join("target/bin").join(self.0);
        assert!(
            path.exists(),
            "{} isn't there: run `tools/build {}` first",
            path.display(),
            self.0
        );
        path
    }

    pub fn started(&self) -> Child {
        self.started_from(Stdio::piped())
    }

    /// Running on this standard input.
    pub fn started_from(&self, input: impl Into<Stdio>) -> Child {
        Command::new(self.path())
            .stdin(input)
            .stdout(Stdio::piped())
            .stderr(Stdio::piped())
            .spawn()
            .expect("it starts")
    }

    /// Its output for this standard input.
    pub fn output_from(&self, input: impl Into<Stdio>) -> Output {
        self.started_from(input)
            .wait_with_output()
            .expect("it ends")
    }

    /// What it prints for an input that is written in these pieces, with a pause before
    /// each.
    pub fn printed_in_pieces<'a>(
        &self,
        pieces: impl IntoIterator<Item = &'a [u8]>,
        pause: Option<Duration>,
    ) -> String {
        let mut child = self.started();
        let mut input = child.stdin.take().expect("a pipe");
        for piece in pieces {
            if let Some(pause) = pause {
                thread::sleep(pause);
            }
            // It may have gone, having read what it looks at.
            if input.write_all(piece).and_then(|()| input.flush()).is_err() {
                break;
            }
        }
        drop(input);
        printed(child.wait_with_output().expect("it ends"))
    }

    /// What it prints for an input.
    pub fn printed(&self, input: &[u8]) -> String {
        self.printed_in_pieces([input], None)
    }

    /// A shell that runs a script with the program as `$0`.
    pub fn shell(&self, script: &str) -> Command {
        let mut command = Command::new("sh");
        command.args(["-c", script]).arg(self.path());
        command
    }

    /// Runs it on an input with files limited in size, its output appended to a file that
    /// has room for so many bytes more. Gives what it wrote there, too.
    pub fn limited(
        &self,
        input: &[u8],
        room: usize,
        ignore: &str,
        path: &Path,
    ) -> (Output, String) {
        const LIMIT: &str = "ulimit -f 1";
        // Its size is the limit then, whatever a shell takes as a block.
        let fill = format!("trap '' XFSZ; {LIMIT}; head -c 99999 /dev/zero >\"$1\" 2>/dev/null");
        let mut shell = self.shell(&fill);
        shell.arg(path).status().expect("sh starts");
        let file = File::options().write(true).open(path).expect("a file");
        let length = file.metadata().expect("a length").len() - room as u64;
        file.set_len(length).expect("a shorter file");
        let mut command = self.shell(&format!("{ignore} {LIMIT}; exec \"$0\" >>\"$1\""));
        command.arg(path);
        let output = output_on(command, input);
        let written = fs::read(path).expect("a file").split_off(length as usize);
        (output, String::from_utf8(written).expect("ASCII"))
    }
}

/// What a process wrote to standard output and to standard error. It must end well.
pub fn said(output: Output) -> [String; 2] {
    assert!(output.status.success(), "{}", output.status);
    [output.stdout, output.stderr].map(|bytes| String::from_utf8(bytes).expect("ASCII"))
}

/// What it printed. It must end well and print nothing on standard error.
pub fn printed(output: Output) -> String {
    let [lines, message] = said(output);
    assert_eq!(message, "");
    lines
}

/// A shell's output with these bytes on its standard input.
pub fn output_on(mut shell: Command, input: &[u8]) -> Output {
    let mut child = shell
        .stdin(Stdio::piped())
        .stderr(Stdio::piped())
        .spawn()
        .expect("sh starts");
    let mut pipe = child.stdin.take().expect("a pipe");
    pipe.write_all(input).expect("room");
    drop(pipe);
    child.wait_with_output().expect("it ends")
}

/// The same pipe opened once more, so that reads of it don't wait.
pub fn non_blocking(reader: &PipeReader) -> File {
    const O_NONBLOCK: i32 = 0o4000;
    File::options()
        .read(true)
        .custom_flags(O_NONBLOCK)
        .open(format!("/proc/self/fd/{}", reader.as_raw_fd()))
        .expect("the pipe")
}

/// Two sockets that are connected; a read of the second waits no longer than this.
pub fn sockets(timeout: Duration) -> (UnixStream, OwnedFd) {
    let (ours, theirs) = UnixStream::pair().expect("two sockets");
    theirs.set_read_timeout(Some(timeout)).expect("a timeout");
    (ours, OwnedFd::from(theirs))
}

/// Stops a process while it waits for input, and lets it go on.
pub fn stop_for_a_moment(child: &Child) {
    thread::sleep(Duration::from_millis(50));
    let script = format!("kill -STOP {0}; kill -CONT {0}", child.id());
    let status = Command::new("sh").args(["-c", &script]).status();
    assert!(status.expect("sh starts").success());
}

/// A file of the folder of samples.
pub fn sample_file(name: &str) -> String {
    fs::read_to_string(root().join("samples").join(name)).expect("a text file")
}

/// A sample sheet.
pub fn sample(name: &str) -> Vec<u8> {
    unhex(&sample_file(&format!("{name}.hex")))
}

/// The sample sheets, with their names.
pub fn samples() -> Vec<(String, Vec<u8>)> {
    let entries = fs::read_dir(root().join("samples")).expect("a directory");
    let paths = entries.map(|entry| entry.expect("an entry").path());
    let sheets = paths.filter(|path| path.extension().is_some_and(|extension| extension == "hex"));
    let names = sheets.map(|path| path.file_stem().unwrap().to_str().unwrap().to_string());
    let samples: Vec<(String, Vec<u8>)> = names.map(|name| (name.clone(), sample(&name))).collect();
    assert_eq!(samples.len(), 26);
    samples
}

fn unhex(text: &str) -> Vec<u8> {
    let digits: Vec<u8> = text
        .chars()
        .filter(|digit| !digit.is_whitespace())
        .map(|digit| digit.to_digit(16).expect("a hexadecimal digit") as u8)
        .collect();
    digits
        .chunks_exact(2)
        .map(|pair| 16 * pair[0] + pair[1])
        .collect()
}
