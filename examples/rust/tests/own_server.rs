//! A FUSE server of one file, held against the proved kernel: `FUSEWORLD=path cargo test --offline`.

use fuseworld::{Side, check, drive, hex};
use std::io::{Read, Write};
use std::os::unix::net::UnixStream;

const ENOENT: i32 = 2;
const ENOSYS: i32 = 38;

/// `struct fuse_out_header` and a body.
fn reply(unique: u64, error: i32, body: &[u8]) -> Vec<u8> {
    let mut frame = (16 + body.len() as u32).to_le_bytes().to_vec();
    frame.extend((-error).to_le_bytes());
    frame.extend(unique.to_le_bytes());
    frame.extend(body);
    frame
}

/// `struct fuse_attr`: the root is a directory, node 2 a file of 5 bytes.
fn attributes(node: u64) -> Vec<u8> {
    let (mode, size) = if node == 1 { (0o040755u32, 0u64) } else { (0o100644, 5) };
    let mut body = node.to_le_bytes().to_vec();
    body.extend(size.to_le_bytes());
    body.extend([0; 44]);
    body.extend(mode.to_le_bytes());
    body.extend(1u32.to_le_bytes());
    body.extend([0; 20]);
    body
}

/// What a server's author writes. With `twice` each reply is sent twice.
#[derive(Default)]
struct Server {
    lookups: u64,
    twice: bool,
}

impl Server {
    /// The reply to a request frame; none to a FORGET.
    fn answer(&mut self, frame: &[u8]) -> Option<Vec<u8>> {
        let opcode = u32::from_le_bytes(frame[4..8].try_into().unwrap());
        let unique = u64::from_le_bytes(frame[8..16].try_into().unwrap());
        let node = u64::from_le_bytes(frame[16..24].try_into().unwrap());
        Some(match (opcode, &frame[40..]) {
            (26, _) => {
                let mut body = [7u32, 31, 0, 1, 0, 4096, 1, 0].map(u32::to_le_bytes).concat();
                body.extend([0; 32]);
                reply(unique, 0, &body)
            }
            (1, b"a\0") => {
                self.lookups += 1;
                let mut body = [2u64, 1, 1, 1, 0].map(u64::to_le_bytes).concat();
                body.extend(attributes(2));
                reply(unique, 0, &body)
            }
            (1, _) => reply(unique, ENOENT, &[]),
            (3, _) => {
                let mut body = [1u64, 0].map(u64::to_le_bytes).concat();
                body.extend(attributes(node));
                reply(unique, 0, &body)
            }
            (2, count) => {
                self.lookups -= u64::from_le_bytes(count.try_into().unwrap());
                return None;
            }
            _ => reply(unique, ENOSYS, &[]),
        })
    }

    /// Serves a connection until it ends.
    fn serve(mut self, mut stream: UnixStream) {
        let mut length = [0; 4];
        while stream.read_exact(&mut length).is_ok() {
            let mut frame = vec![0; u32::from_le_bytes(length) as usize];
            frame[..4].copy_from_slice(&length);
            if stream.read_exact(&mut frame[4..]).is_err() {
                return;
            }
            let answer = self.answer(&frame).unwrap_or_default();
            for _ in 0..if self.twice { 2 } else { 1 } {
                if stream.write_all(&answer).is_err() {
                    return;
                }
            }
        }
    }
}

/// A kernel that has mounted, and the session up to then.
fn mounted(server: &mut Server) -> (Side, Vec<String>) {
    let mut kernel = Side::kernel().unwrap();
    kernel.say("mount").unwrap();
    let mut session = Vec::new();
    exchange(&mut kernel, server, &mut session);
    (kernel, session)
}

/// One request there and one reply back, which is accepted.
fn exchange(kernel: &mut Side, server: &mut Server, session: &mut Vec<String>) -> fuseworld::Json {
    let request = kernel.frame("read p 0").unwrap();
    let answer = server.answer(&request).unwrap();
    session.extend([format!("> {}", hex(&request)), format!("< {}", hex(&answer))]);
    let written = kernel.write(&answer).unwrap();
    assert_eq!(written.number("result"), Some(0));
    written
}

#[test]
fn what_the_kernel_counts_is_forgotten() {
    let mut server = Server::default();
    let (mut kernel, mut session) = mounted(&mut server);
    kernel.say("call stat /a").unwrap();
    exchange(&mut kernel, &mut server, &mut session);
    let answered = exchange(&mut kernel, &mut server, &mut session);
    assert_eq!(answered.list("answers")[0].number("size"), Some(5));
    kernel.say("drop 1 a").unwrap();
    assert_eq!(kernel.say("evict 2").unwrap().number("count"), Some(server.lookups));
    assert_eq!(server.answer(&kernel.frame("read f 1").unwrap()), None);
    assert_eq!(server.lookups, 0);
    assert!(kernel.say("fly").is_err());
}

#[test]
fn a_session_is_judged() {
    let mut server = Server::default();
    let (mut kernel, mut session) = mounted(&mut server);
    kernel.say("call stat /b").unwrap();
    exchange(&mut kernel, &mut server, &mut session);
    assert_eq!(check(&session).unwrap().len(), 1);
    session.push(session[3].clone());
    let rules: Vec<_> = check(&session).unwrap().iter().filter_map(|fault| fault.text("rule").map(str::to_string)).collect();
    assert!(rules.contains(&"second reply".to_string()), "{rules:?}");
    assert!(check(&["? 00".to_string()]).is_err());
}

#[test]
fn a_server_is_driven() {
    let lines = drive(&["call stat /b"], &[], |stream| Server::default().serve(stream)).unwrap();
    assert_eq!(lines.last().unwrap(), "answers 1 differ 0");
    let wrong = Server { twice: true, ..Server::default() };
    let lines = drive(&["call stat /"], &["--calls"], |stream| wrong.serve(stream)).unwrap();
    assert!(lines.contains(&"second reply: INIT 2".to_string()), "{lines:?}");
}
