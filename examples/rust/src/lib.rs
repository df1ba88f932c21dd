//! The program `fuseworld` for tests of FUSE servers and kernels, with the standard library alone.
//!
//! The variable `FUSEWORLD` names the program, else it is looked for on the path. What it prints is in docs/SIDES.md,
//! docs/DRIVE.md and docs/CHECK.md.

mod json;

pub use json::Json;
use std::io::{self, BufRead, BufReader, Error, ErrorKind, Write};
use std::os::unix::net::{UnixListener, UnixStream};
use std::process::{Child, ChildStdout, Command, Output, Stdio};
use std::sync::atomic::{AtomicU32, Ordering};

fn program() -> Command {
    Command::new(std::env::var("FUSEWORLD").unwrap_or("fuseworld".to_string()))
}

fn invalid(why: String) -> Error {
    Error::new(ErrorKind::InvalidData, why)
}

/// A frame in hex, `-` for no bytes.
pub fn hex(frame: &[u8]) -> String {
    if frame.is_empty() { "-".to_string() } else { frame.iter().map(|byte| format!("{byte:02x}")).collect() }
}

fn bytes(hex: &str) -> Option<Vec<u8>> {
    (0..hex.len()).step_by(2).map(|at| u8::from_str_radix(hex.get(at..at + 2)?, 16).ok()).collect()
}

/// A side as a process, which ends when this is dropped.
pub struct Side {
    process: Child,
    from: BufReader<ChildStdout>,
}

impl Side {
    /// The proved kernel, in front of your server.
    pub fn kernel() -> io::Result<Side> {
        Side::start("kernel")
    }

    /// The proved server, in front of your kernel; begin with the line `mount 1000 0`.
    pub fn server() -> io::Result<Side> {
        Side::start("server")
    }

    fn start(command: &str) -> io::Result<Side> {
        let mut process = program().args([command, "--json"]).stdin(Stdio::piped()).stdout(Stdio::piped()).spawn()?;
        let from = BufReader::new(process.stdout.take().ok_or(ErrorKind::BrokenPipe)?);
        Ok(Side { process, from })
    }

    /// The object that a line comes to. Of a line that is no line, an error.
    pub fn say(&mut self, line: &str) -> io::Result<Json> {
        let mut said = String::new();
        writeln!(self.process.stdin.as_mut().ok_or(ErrorKind::BrokenPipe)?, "{line}")?;
        self.from.read_line(&mut said)?;
        let object = Json::parse(&said).ok_or_else(|| invalid(format!("{line}: not an object: {said:?}")))?;
        match object.text("line") {
            Some(fault) => Err(invalid(format!("{line}: {fault}"))),
            None => Ok(object),
        }
    }

    /// The same, and the frame that it has. Where it has none, an error.
    pub fn frame(&mut self, line: &str) -> io::Result<Vec<u8>> {
        let object = self.say(line)?;
        object.text("frame").and_then(bytes).ok_or_else(|| invalid(format!("{line}: no frame: {object:?}")))
    }

    /// Of the kernel: what it makes of bytes as a reply, whose `result` is 0, 2 (ENOENT) or 22 (EINVAL).
    pub fn write(&mut self, frame: &[u8]) -> io::Result<Json> {
        self.say(&format!("write {}", hex(frame)))
    }

    /// Of the server: what it makes of bytes as a request.
    pub fn take(&mut self, frame: &[u8]) -> io::Result<Json> {
        self.say(&format!("take {}", hex(frame)))
    }
}

impl Drop for Side {
    fn drop(&mut self) {
        let _ = self.process.kill();
        let _ = self.process.wait();
    }
}

/// Drives a server by a script: `serve` has the server's end of a connection. Without options a line is a call, and its
/// answer is compared with the proved server's. Gives the lines that are printed; an error, where the script did not run.
pub fn drive(script: &[&str], options: &[&str], serve: impl FnOnce(UnixStream) + Send + 'static) -> io::Result<Vec<String>> {
    static RUNS: AtomicU32 = AtomicU32::new(0);
    let number = RUNS.fetch_add(1, Ordering::SeqCst);
    let folder = std::env::temp_dir().join(format!("fuseworld-{}-{number}", std::process::id()));
    std::fs::create_dir(&folder)?;
    let (file, path) = (folder.join("script"), folder.join("socket"));
    let ran = (|| {
        std::fs::write(&file, script.join("\n") + "\n")?;
        let listener = UnixListener::bind(&path)?;
        std::thread::spawn(move || listener.accept().map(|(connection, _)| serve(connection)));
        let options = if options.is_empty() { &["--beside"] } else { options };
        program().arg("drive").args(options).args([&file, &path]).stdin(Stdio::null()).output()
    })();
    std::fs::remove_dir_all(&folder)?;
    lines(ran?, &[0, 4, 6])
}

/// Judges the lines of a capture: `> HEX` a request, `< HEX` a reply. Gives an object for each fault and warning, and last
/// the counts; an error, where a line is none.
pub fn check(capture: &[String]) -> io::Result<Vec<Json>> {
    let mut process = program().args(["check", "--json"]).stdin(Stdio::piped()).stdout(Stdio::piped()).stderr(Stdio::piped()).spawn()?;
    let mut input = process.stdin.take().ok_or(ErrorKind::BrokenPipe)?;
    let text = capture.join("\n") + "\n";
    // A bad line ends the program before the end of its input.
    let writer = std::thread::spawn(move || input.write_all(text.as_bytes()));
    let said = lines(process.wait_with_output()?, &[0, 6])?;
    let _ = writer.join();
    let objects = said.iter().skip(1).map(|line| Json::parse(line).ok_or_else(|| invalid(line.clone())));
    objects.collect()
}

/// What was printed, a line each, where the program ended with one of these statuses; else an error with what it said.
fn lines(ran: Output, statuses: &[i32]) -> io::Result<Vec<String>> {
    let (out, said) = (String::from_utf8_lossy(&ran.stdout), String::from_utf8_lossy(&ran.stderr));
    match ran.status.code() {
        Some(status) if statuses.contains(&status) && !out.is_empty() => Ok(out.lines().map(str::to_string).collect()),
        status => Err(invalid(format!("fuseworld ended with status {status:?}: {}", said.trim()))),
    }
}
