//! Prints what each frame of a capture is, a line a frame, by the library of include/fuseworld.h.
//!
//! `rustc -O decode.rs -L DIR -l static=fuseworld_codec`, and then `decode FILE`. It does what
//! examples/c/decode.c does, and prints the same.

use std::collections::HashMap;
use std::process::ExitCode;

/// The structs and calls of include/fuseworld.h.
mod codec {
    #[repr(C)]
    #[derive(Default)]
    pub struct RequestHead {
        pub unique: u64,
        pub opcode: u32,
        pub padding: u32,
    }

    #[repr(C)]
    #[derive(Default)]
    pub struct ReplyHead {
        pub unique: u64,
        pub error: i32,
        pub padding: u32,
    }

    #[repr(C)]
    #[derive(Default)]
    pub struct Request {
        pub unique: u64,
        pub nodeid: u64,
        pub fh: u64,
        pub offset: u64,
        pub nlookup: u64,
        pub newdir: u64,
        pub oldnodeid: u64,
        pub interrupted: u64,
        pub name_offset: usize,
        pub name_length: usize,
        pub newname_offset: usize,
        pub newname_length: usize,
        pub data_offset: usize,
        pub data_length: usize,
        pub opcode: u32,
        pub size: u32,
        pub major: u32,
        pub minor: u32,
        pub flags: u32,
        pub padding: u32,
    }

    #[repr(C)]
    #[derive(Default)]
    pub struct Attr {
        pub ino: u64,
        pub size: u64,
        pub mode: u32,
        pub nlink: u32,
    }

    #[repr(C)]
    #[derive(Default)]
    pub struct Entry {
        pub nodeid: u64,
        pub generation: u64,
        pub entry_valid: u64,
        pub entry_valid_nsec: u32,
        pub padding: u32,
        pub attr: Attr,
    }

    #[repr(C)]
    #[derive(Default)]
    pub struct Reply {
        pub unique: u64,
        pub error: i32,
        pub opcode: u32,
        pub entry: Entry,
        pub fh: u64,
        pub data_offset: usize,
        pub data_length: usize,
        pub size: u32,
        pub major: u32,
        pub minor: u32,
        pub flags: u32,
    }

    #[repr(C)]
    #[derive(Default)]
    pub struct ForgetOne {
        pub nodeid: u64,
        pub nlookup: u64,
    }

    #[repr(C)]
    #[derive(Default)]
    pub struct Dirent {
        pub ino: u64,
        pub off: u64,
        pub name_offset: usize,
        pub name_length: usize,
        pub kind: u32,
        pub padding: u32,
    }

    #[repr(C)]
    #[derive(Default)]
    pub struct DirentPlus {
        pub entry: Entry,
        pub dirent: Dirent,
    }

    unsafe extern "C" {
        pub fn fuseworld_read_request_head(bytes: *const u8, len: usize, out: *mut RequestHead) -> u32;
        pub fn fuseworld_read_reply_head(bytes: *const u8, len: usize, out: *mut ReplyHead) -> u32;
        pub fn fuseworld_read_request(minor: u32, bytes: *const u8, len: usize, out: *mut Request) -> u32;
        pub fn fuseworld_read_reply(minor: u32, opcode: u32, bytes: *const u8, len: usize, out: *mut Reply) -> u32;
        pub fn fuseworld_next_pair(bytes: *const u8, len: usize, offset: *mut usize, out: *mut ForgetOne) -> u32;
        pub fn fuseworld_next_record(bytes: *const u8, len: usize, offset: *mut usize, out: *mut Dirent) -> u32;
        pub fn fuseworld_next_record_plus(
            bytes: *const u8,
            len: usize,
            offset: *mut usize,
            out: *mut DirentPlus,
        ) -> u32;
        pub fn fuseworld_opcode_name(opcode: u32, buffer: *mut u8, capacity: usize) -> usize;
        pub fn fuseworld_fault_name(fault: u32, buffer: *mut u8, capacity: usize) -> usize;
    }
}

use codec::{Attr, Dirent, DirentPlus, Entry, ForgetOne, Reply, ReplyHead, Request, RequestHead};

const MINOR: u32 = 31;

/// Reads a head: its value, or the number of its fault.
fn request_head(frame: &[u8]) -> Result<RequestHead, u32> {
    let mut head = RequestHead::default();
    match unsafe { codec::fuseworld_read_request_head(frame.as_ptr(), frame.len(), &mut head) } {
        0 => Ok(head),
        fault => Err(fault),
    }
}

fn reply_head(frame: &[u8]) -> Result<ReplyHead, u32> {
    let mut head = ReplyHead::default();
    match unsafe { codec::fuseworld_read_reply_head(frame.as_ptr(), frame.len(), &mut head) } {
        0 => Ok(head),
        fault => Err(fault),
    }
}

fn request(frame: &[u8]) -> Result<Request, u32> {
    let mut request = Request::default();
    match unsafe { codec::fuseworld_read_request(MINOR, frame.as_ptr(), frame.len(), &mut request) } {
        0 => Ok(request),
        fault => Err(fault),
    }
}

fn reply(opcode: u32, frame: &[u8]) -> Result<Reply, u32> {
    let mut reply = Reply::default();
    match unsafe { codec::fuseworld_read_reply(MINOR, opcode, frame.as_ptr(), frame.len(), &mut reply) } {
        0 => Ok(reply),
        fault => Err(fault),
    }
}

/// The name that a call puts into a buffer, or `?`.
fn name_of(call: unsafe extern "C" fn(u32, *mut u8, usize) -> usize, number: u32) -> String {
    let mut buffer = [0u8; 16];
    let len = unsafe { call(number, buffer.as_mut_ptr(), buffer.len()) };
    if len == 0 { "?".to_string() } else { String::from_utf8_lossy(&buffer[..len]).into_owned() }
}

/// A name. Bytes outside of 33 to 126 are printed as `?`.
fn text(frame: &[u8], offset: usize, length: usize) -> String {
    let printed = |byte: &u8| if (33..=126).contains(byte) { *byte as char } else { '?' };
    frame[offset..offset + length].iter().map(printed).collect()
}

fn pair_words(frame: &[u8], mut offset: usize) -> String {
    let mut words = String::new();
    let mut pair = ForgetOne::default();
    while unsafe { codec::fuseworld_next_pair(frame.as_ptr(), frame.len(), &mut offset, &mut pair) } == 0 {
        words += &format!(" {}:{}", pair.nodeid, pair.nlookup);
    }
    words
}

fn request_line(r: &Request, frame: &[u8]) -> String {
    let name = name_of(codec::fuseworld_opcode_name, r.opcode);
    let mut line = format!("> {name} unique {} nodeid {}", r.unique, r.nodeid);
    line += &match name.as_str() {
        "FORGET" => format!(" nlookup {}", r.nlookup),
        "LINK" => format!(" oldnodeid {}", r.oldnodeid),
        "RENAME" => format!(" newdir {}", r.newdir),
        "READ" => format!(" fh {} offset {} size {}", r.fh, r.offset, r.size),
        "WRITE" => format!(" fh {} offset {} bytes {}", r.fh, r.offset, r.data_length),
        "RELEASE" => format!(" fh {}", r.fh),
        "INIT" => format!(" major {} minor {} flags {}", r.major, r.minor, r.flags),
        "READDIR" | "READDIRPLUS" => format!(" offset {} size {}", r.offset, r.size),
        "INTERRUPT" => format!(" interrupted {}", r.interrupted),
        "BATCH_FORGET" => pair_words(frame, r.data_offset),
        _ => String::new(),
    };
    if r.name_length > 0 {
        line += &format!(" name {}", text(frame, r.name_offset, r.name_length));
    }
    if r.newname_length > 0 {
        line += &format!(" newname {}", text(frame, r.newname_offset, r.newname_length));
    }
    line
}

fn attr_words(a: &Attr) -> String {
    format!(" ino {} size {} mode {} nlink {}", a.ino, a.size, a.mode, a.nlink)
}

fn entry_words(e: &Entry) -> String {
    if e.nodeid == 0 {
        return format!(" nodeid 0 valid {} {}", e.entry_valid, e.entry_valid_nsec);
    }
    let head = format!(" nodeid {} generation {}", e.nodeid, e.generation);
    format!("{head} valid {} {}{}", e.entry_valid, e.entry_valid_nsec, attr_words(&e.attr))
}

fn dirent_words(d: &Dirent, frame: &[u8]) -> String {
    format!(" {}:{}:{}:{}", text(frame, d.name_offset, d.name_length), d.off, d.ino, d.kind)
}

fn record_words(frame: &[u8], mut offset: usize) -> String {
    let mut words = String::new();
    let mut dirent = Dirent::default();
    while unsafe { codec::fuseworld_next_record(frame.as_ptr(), frame.len(), &mut offset, &mut dirent) } == 0 {
        words += &dirent_words(&dirent, frame);
    }
    words
}

fn record_plus_words(frame: &[u8], mut offset: usize) -> String {
    let mut words = String::new();
    let mut pair = DirentPlus::default();
    while unsafe { codec::fuseworld_next_record_plus(frame.as_ptr(), frame.len(), &mut offset, &mut pair) } == 0 {
        words += &format!("{}:{}", dirent_words(&pair.dirent, frame), pair.entry.nodeid);
    }
    words
}

fn reply_line(r: &Reply, frame: &[u8]) -> String {
    let name = name_of(codec::fuseworld_opcode_name, r.opcode);
    let line = format!("< {name} unique {} error {}", r.unique, r.error);
    if r.error != 0 {
        return line;
    }
    line + &match name.as_str() {
        "LOOKUP" | "MKDIR" | "LINK" => entry_words(&r.entry),
        "CREATE" => format!("{} fh {}", entry_words(&r.entry), r.fh),
        "GETATTR" => attr_words(&r.entry.attr),
        "OPEN" => format!(" fh {}", r.fh),
        "READ" => format!(" bytes {}", r.data_length),
        "WRITE" => format!(" size {}", r.size),
        "INIT" => format!(" major {} minor {} flags {}", r.major, r.minor, r.flags),
        "READDIR" => record_words(frame, r.data_offset),
        "READDIRPLUS" => record_plus_words(frame, r.data_offset),
        _ => String::new(),
    }
}

fn fault_line(direction: char, fault: u32) -> String {
    format!("{direction} fault {fault} {}", name_of(codec::fuseworld_fault_name, fault))
}

/// Of a kernel of 7.36 or later, INIT has 104 bytes: the first 56 are the INIT of 7.31.
fn cut_init(frame: &mut Vec<u8>) {
    if frame.len() == 104 && request_head(frame).is_ok_and(|head| head.opcode == 26) {
        frame[..4].copy_from_slice(&56u32.to_le_bytes());
        frame.truncate(56);
    }
}

fn decode_request(mut frame: Vec<u8>, asked: &mut HashMap<u64, u32>) -> String {
    cut_init(&mut frame);
    if let Ok(head) = request_head(&frame) {
        asked.insert(head.unique, head.opcode);
    }
    match request(&frame) {
        Ok(request) => request_line(&request, &frame),
        Err(fault) => fault_line('>', fault),
    }
}

fn decode_reply(frame: &[u8], asked: &HashMap<u64, u32>) -> String {
    let read = reply_head(frame).and_then(|head| reply(*asked.get(&head.unique).unwrap_or(&0), frame));
    match read {
        Ok(reply) => reply_line(&reply, frame),
        Err(fault) => fault_line('<', fault),
    }
}

fn unhex(hex: &str) -> Option<Vec<u8>> {
    if !hex.is_ascii() || hex.len() % 2 != 0 {
        return None;
    }
    (0..hex.len()).step_by(2).map(|i| u8::from_str_radix(&hex[i..i + 2], 16).ok()).collect()
}

fn decode_line(line: &str, asked: &mut HashMap<u64, u32>) -> Option<String> {
    if let Some(hex) = line.strip_prefix("> ") {
        return Some(decode_request(unhex(hex)?, asked));
    }
    Some(decode_reply(&unhex(line.strip_prefix("< ")?)?, asked))
}

fn main() -> ExitCode {
    let Some(capture) = std::env::args().nth(1).and_then(|path| std::fs::read_to_string(path).ok()) else {
        eprintln!("usage: decode FILE");
        return ExitCode::FAILURE;
    };
    let mut asked = HashMap::new();
    for line in capture.lines() {
        let Some(words) = decode_line(line, &mut asked) else {
            eprintln!("decode: a line is no frame");
            return ExitCode::FAILURE;
        };
        println!("{words}");
    }
    ExitCode::SUCCESS
}
