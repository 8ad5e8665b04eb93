//! Reads a LINK, writes the UNLINK_ID that takes it back and a send_name, and computes a digest, by
//! liberldist.

/// A place in bytes.
#[repr(C)]
#[derive(Default)]
struct Place {
    offset: usize,
    length: usize,
}

/// The head of a frame.
#[repr(C)]
#[derive(Default)]
struct Frame {
    length: usize,
    id: u64,
    from: Place,
    to: Place,
    reference: Place,
    payload: Place,
    operation: u32,
}

/// A pid that was read.
#[repr(C)]
#[derive(Default)]
struct SeenPid {
    node: Place,
    latin1: u32,
    id: u32,
    serial: u32,
    creation: u32,
}

/// A handshake message.
#[repr(C)]
#[derive(Default)]
struct Message {
    length: usize,
    flags: u64,
    name: Place,
    kind: u32,
    status: u32,
    challenge: u32,
    creation: u32,
    digest: [u8; 16],
}

/// The kind of a send_name.
const SEND_NAME: u32 = 1;

/// The role of a node to which another connects.
const ACCEPTOR: u32 = 0;

/// The numbers of a pid.
#[repr(C)]
struct Pid {
    id: u32,
    serial: u32,
    creation: u32,
}

extern "C" {
    fn erldist_term_len(bytes: *const u8, bytes_length: usize, length: &mut usize) -> u32;
    fn erldist_frame_head(bytes: *const u8, bytes_length: usize, frame: &mut Frame) -> u32;
    fn erldist_read_pid(bytes: *const u8, bytes_length: usize, pid: &mut SeenPid) -> u32;
    fn erldist_put_unlink_id(
        id: u64,
        from_node: *const u8,
        from_node_length: usize,
        from: &Pid,
        to_node: *const u8,
        to_node_length: usize,
        to: &Pid,
        out: *mut u8,
        out_length: usize,
        length: &mut usize,
    ) -> u32;
    fn erldist_read_message(
        role: u32,
        bytes: *const u8,
        bytes_length: usize,
        message: &mut Message,
    ) -> u32;
    fn erldist_put_message(
        message: &Message,
        name: *const u8,
        name_length: usize,
        out: *mut u8,
        out_length: usize,
        out_needed: &mut usize,
    ) -> u32;
    fn erldist_digest(cookie: *const u8, cookie_length: usize, challenge: u32, out: &mut [u8; 16]);
}

/// Reads the head of the frame at the front.
fn frame_head(bytes: &[u8]) -> (u32, Frame) {
    let mut frame = Frame::default();
    // SAFETY: the slice is valid for its length, and `frame` is a place of its own.
    let result = unsafe { erldist_frame_head(bytes.as_ptr(), bytes.len(), &mut frame) };
    (result, frame)
}

/// Reads the length of the term at the front.
fn term_len(bytes: &[u8]) -> (u32, usize) {
    let mut length = 0;
    // SAFETY: the slice is valid for its length, and `length` is a place of its own.
    let result = unsafe { erldist_term_len(bytes.as_ptr(), bytes.len(), &mut length) };
    (result, length)
}

/// Reads the pid of a place.
fn read_pid(bytes: &[u8]) -> (u32, SeenPid) {
    let mut pid = SeenPid::default();
    // SAFETY: the slice is valid for its length, and `pid` is a place of its own.
    let result = unsafe { erldist_read_pid(bytes.as_ptr(), bytes.len(), &mut pid) };
    (result, pid)
}

/// Writes UNLINK_ID to `out`, and returns the length that is needed.
fn put_unlink_id(id: u64, from: (&str, Pid), to: (&str, Pid), out: &mut [u8]) -> (u32, usize) {
    let mut length = 0;
    // SAFETY: each slice is valid for its length, and `out` and `length` overlap nothing.
    let result = unsafe {
        erldist_put_unlink_id(
            id,
            from.0.as_ptr(),
            from.0.len(),
            &from.1,
            to.0.as_ptr(),
            to.0.len(),
            &to.1,
            out.as_mut_ptr(),
            out.len(),
            &mut length,
        )
    };
    (result, length)
}

/// Reads the message at the front.
fn read_message(role: u32, bytes: &[u8]) -> (u32, Message) {
    let mut message = Message::default();
    // SAFETY: the slice is valid for its length, and `message` is a place of its own.
    let result = unsafe { erldist_read_message(role, bytes.as_ptr(), bytes.len(), &mut message) };
    (result, message)
}

/// Writes the message to `out`, and returns the length that is needed.
fn put_message(message: &Message, name: &str, out: &mut [u8]) -> (u32, usize) {
    let mut needed = 0;
    // SAFETY: each slice is valid for its length, and `out` and `needed` overlap nothing.
    let result = unsafe {
        erldist_put_message(
            message,
            name.as_ptr(),
            name.len(),
            out.as_mut_ptr(),
            out.len(),
            &mut needed,
        )
    };
    (result, needed)
}

/// Returns the digest of the cookie and the challenge.
fn digest(cookie: &[u8], challenge: u32) -> [u8; 16] {
    let mut out = [0; 16];
    // SAFETY: the slice is valid for its length, and `out` is a place of its own.
    unsafe { erldist_digest(cookie.as_ptr(), cookie.len(), challenge, &mut out) };
    out
}

/// LINK from <a@h, id 1> to <b@h, id 1>, both of creation 1.
const LINK: &str =
    "0000002A708368036101587703614068000000010000000000000001587703624068000000010000000000000001";

/// Reads hexadecimal digits.
fn unhex(digits: &str) -> Vec<u8> {
    (0..digits.len() / 2)
        .map(|i| u8::from_str_radix(&digits[2 * i..2 * i + 2], 16).expect("two digits"))
        .collect()
}

/// Prints a name and bytes in hexadecimal digits.
fn show(name: &str, bytes: &[u8]) {
    let digits: String = bytes.iter().map(|byte| format!("{byte:02X}")).collect();
    println!("{name} {digits}");
}

/// Returns the bytes at a place.
fn at<'a>(bytes: &'a [u8], place: &Place) -> &'a [u8] {
    &bytes[place.offset..place.offset + place.length]
}

/// The process with the id 1 of the first incarnation of its node.
fn first() -> Pid {
    Pid {
        id: 1,
        serial: 0,
        creation: 1,
    }
}

fn main() {
    let bytes = unhex(LINK);
    let (result, frame) = frame_head(&bytes);
    println!(
        "frame result {result} length {} operation {}",
        frame.length, frame.operation
    );
    show("from", at(&bytes, &frame.from));
    show("to", at(&bytes, &frame.to));

    let sender = at(&bytes, &frame.from);
    let (result, pid) = read_pid(sender);
    println!(
        "pid result {result} node {} id {} serial {} creation {}",
        String::from_utf8_lossy(at(sender, &pid.node)),
        pid.id,
        pid.serial,
        pid.creation
    );

    // With its last byte missing the frame needs more bytes.
    let (result, frame) = frame_head(&bytes[..bytes.len() - 1]);
    println!("cut result {result} length {}", frame.length);

    // The control term begins behind the length and the byte 112.
    let (result, term) = term_len(&bytes[5..]);
    println!("term result {result} length {term}");

    // Too small a buffer is told the length.
    let mut out = [0; 64];
    let (result, needed) = put_unlink_id(7, ("a@h", first()), ("b@h", first()), &mut out[..8]);
    println!("small result {result} length {needed}");
    let (result, needed) = put_unlink_id(7, ("a@h", first()), ("b@h", first()), &mut out);
    println!("unlink_id result {result} length {needed}");
    show("bytes", &out[..needed]);

    // send_name of a@h, written and read again.
    let name = Message {
        kind: SEND_NAME,
        flags: 0x4_0305_0124,
        creation: 1,
        ..Message::default()
    };
    let (result, needed) = put_message(&name, "a@h", &mut out);
    println!("send_name result {result} length {needed}");
    show("bytes", &out[..needed]);
    let (result, seen) = read_message(ACCEPTOR, &out[..needed]);
    println!(
        "read result {result} length {} kind {} flags {:X} creation {} name {}",
        seen.length,
        seen.kind,
        seen.flags,
        seen.creation,
        String::from_utf8_lossy(at(&out, &seen.name)),
    );

    show("digest", &digest(b"secret", 4042322160));
}
