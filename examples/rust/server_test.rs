//! A kernel's few requests, held against the proved server.
//!
//! `rustc --test -o server_test server_test.rs && FUSEWORLD=path ./server_test`

use std::io::{BufRead, BufReader, Write};
use std::process::{Child, ChildStdin, ChildStdout, Command, Stdio};

/// The program's server: one line there, a line or more back.
struct Server {
    process: Child,
    to: ChildStdin,
    from: BufReader<ChildStdout>,
}

impl Server {
    fn new() -> Server {
        let program = std::env::var("FUSEWORLD").unwrap_or("fuseworld".to_string());
        let mut process = Command::new(program)
            .arg("server")
            .stdin(Stdio::piped())
            .stdout(Stdio::piped())
            .spawn()
            .unwrap();
        let to = process.stdin.take().unwrap();
        let from = BufReader::new(process.stdout.take().unwrap());
        let mut server = Server { process, to, from };
        assert_eq!(server.say("mount 1000 0"), "mounted");
        server
    }

    /// The next line.
    fn line(&mut self) -> String {
        let mut line = String::new();
        self.from.read_line(&mut line).unwrap();
        line.trim_end().to_string()
    }

    /// Says a line, and gives the first line of what it came to.
    fn say(&mut self, line: &str) -> String {
        writeln!(self.to, "{line}").unwrap();
        self.line()
    }

    /// Has a request taken and performed: its reply's frame and the number of its copy.
    fn perform(&mut self, unique: u64, frame: &str) -> (String, String) {
        assert_eq!(self.say(&format!("take {frame}")), format!("taken {unique} held"));
        assert!(self.say(&format!("do {unique}")).starts_with(&format!("done {unique} ")));
        (word(&self.line()), word(&self.line()))
    }
}

impl Drop for Server {
    fn drop(&mut self) {
        let _ = self.process.kill();
        let _ = self.process.wait();
    }
}

/// The second word of a line.
fn word(line: &str) -> String {
    line.split(' ').nth(1).unwrap().to_string()
}

/// A request frame: `struct fuse_in_header` and a body.
fn request(opcode: u32, unique: u64, nodeid: u64, body: &[u8]) -> String {
    let mut frame = (40 + body.len() as u32).to_le_bytes().to_vec();
    frame.extend(opcode.to_le_bytes());
    frame.extend(unique.to_le_bytes());
    frame.extend(nodeid.to_le_bytes());
    frame.extend([0; 16]);
    frame.extend(body);
    frame.iter().map(|byte| format!("{byte:02x}")).collect()
}

/// MKDIR: `struct fuse_mkdir_in` and a name.
fn mkdir(unique: u64, name: &str) -> String {
    let mut body = vec![0xed, 1, 0, 0, 0, 0, 0, 0];
    body.extend(name.bytes());
    body.push(0);
    request(9, unique, 1, &body)
}

#[test]
fn a_copy_that_is_refused_gives_its_lookup_back() {
    let mut server = Server::new();
    let (frame, first) = server.perform(2, &mkdir(2, "d"));
    assert!(frame.starts_with("90000000000000000200000000000000"));
    assert_eq!(server.say("again 2"), "again 2 144");
    let (same, second) = (word(&server.line()), word(&server.line()));
    assert_eq!(frame, same);
    assert_eq!(server.say("show"), "server 2:1:2");
    assert_eq!(server.say(&format!("settle {first} 0")), format!("settled {first} 0"));
    assert_eq!(server.say(&format!("settle {second} 2")), format!("settled {second} 2"));
    assert_eq!(server.say("show"), "server 2:1:1");
}

#[test]
fn a_forget_of_more_than_was_counted_is_refused() {
    let mut server = Server::new();
    let (_, copy) = server.perform(2, &mkdir(2, "d"));
    server.say(&format!("settle {copy} 0"));
    let forget = request(2, 4, 2, &2u64.to_le_bytes());
    assert_eq!(server.say(&format!("take {forget}")), "fault 3 TooManyForgets");
    assert_eq!(server.say("show"), "server 2:1:1");
}

#[test]
fn bytes_that_are_no_request_change_nothing() {
    let mut server = Server::new();
    assert_eq!(server.say("take 00"), "fault 1 Wire");
    assert_eq!(server.say("take zz"), "fault bad text");
    let flush = request(25, 2, 1, &[0; 24]);
    assert_eq!(server.say(&format!("take {flush}")), "fault 1 Wire");
    assert_eq!(server.line(), "frame 10000000daffffff0200000000000000");
    assert_eq!(server.say("show"), "server");
}
