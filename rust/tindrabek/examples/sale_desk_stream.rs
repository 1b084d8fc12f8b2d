//! Makes the key file `sale.key` in the working directory, and writes a stream for the sale desk to standard output: packets that the proved
//! sender protected, in RFC 4571's framing, with strange frames between them. It is the same each time.
//!
//!     sale_desk_stream [PACKETS [EXPECTED]]
//!
//! Without PACKETS it is a short stream about some lots, and standard error says what each frame is. With it, so many packets of many
//! lengths are to be let in; EXPECTED names a file or a pipe for what the desk is to write. Standard error ends with a count.
use std::env;
use std::error::Error;
use std::fs::{self, File};
use std::io::{self, Write};
use std::os::fd::AsFd;
use tindrabek::{Profile, Sender, SetUp, MAX_PACKET_LEN, MAX_RESULT_LEN};

const KEY: [u8; 16] = [0x2a; 16];
const SALT: [u8; 14] = [0x17; 14];
const HEADER_LEN: usize = 12;
/// Shortly before the numbers roll over. The desk starts at rollover counter 0, as the sender does.
const FIRST_NUMBER: u16 = 65_533;

struct Packet {
    plain: Vec<u8>,
    protected: Vec<u8>,
}

impl Packet {
    /// The protected packet with one bit changed.
    fn damaged(&self, at: usize) -> Vec<u8> {
        let mut packet = self.protected.clone();
        packet[at] ^= 4;
        packet
    }

    /// The bytes of a frame of this length that has the packet's own frame in it, again and again.
    fn within(&self, len: usize) -> Vec<u8> {
        frame(&self.protected).into_iter().cycle().take(len).collect()
    }
}

/// A stream's sender, and the number of its next packet.
struct Source {
    ssrc: u32,
    number: u16,
    sender: Sender,
}

impl Source {
    fn new(ssrc: u32, number: u16) -> Source {
        let set_up = SetUp { ssrc, key: &KEY, salt: &SALT, mki: &[], profile: Profile::default() };
        Source { ssrc, number, sender: Sender::set_up(&set_up).expect("the values are right") }
    }

    fn next(&mut self, payload: &[u8]) -> Packet {
        let number = self.number.to_be_bytes();
        let ssrc = self.ssrc.to_be_bytes();
        let plain = [&[0x80, 96], &number[..], &[0; 4], &ssrc, payload].concat();
        let mut out = [0; MAX_RESULT_LEN];
        let sent = self.sender.send_media(&plain, &mut out).expect("each number follows the last");
        self.number = self.number.wrapping_add(1);
        Packet { plain, protected: out[..sent.len].to_vec() }
    }
}

fn frame(packet: &[u8]) -> Vec<u8> {
    let len = u16::try_from(packet.len()).expect("two bytes hold the length");
    [&len.to_be_bytes(), packet].concat()
}

/// Where the frames go, what the desk is to write, and what is said. Each frame is one write and comes before what is to come of it, so that
/// one who reads both in step waits for neither.
struct Output {
    stream: File,
    expected: Box<dyn Write>,
    words: Box<dyn Write>,
    frames: usize,
    bytes: usize,
}

impl Output {
    /// A frame that nothing comes of.
    fn strange(&mut self, packet: &[u8], what: &str) -> io::Result<()> {
        self.frames += 1;
        writeln!(self.words, "{}: {} bytes, {what}", self.frames, packet.len())?;
        self.write(&frame(packet))
    }

    fn good(&mut self, packet: &Packet) -> io::Result<()> {
        let number = u16::from_be_bytes([packet.plain[2], packet.plain[3]]);
        self.strange(&packet.protected, &format!("number {number}"))?;
        self.expected.write_all(&frame(&packet.plain))
    }

    /// The last frame, which lacks a byte.
    fn cut(&mut self, packet: &Packet) -> io::Result<()> {
        let whole = frame(&packet.protected);
        self.write(&whole[..whole.len() - 1])?;
        eprintln!("{} frames, and a last one that is cut: {} bytes", self.frames, self.bytes);
        Ok(())
    }

    fn write(&mut self, bytes: &[u8]) -> io::Result<()> {
        self.bytes += bytes.len();
        self.stream.write_all(bytes)
    }
}

fn lots(source: &mut Source, other: &mut Source, out: &mut Output) -> io::Result<()> {
    let sent = [
        "lot 41, two bids",
        "lot 41, sold",
        "lot 42, one bid",
        "lot 42, a bid by telephone",
        "lot 42, sold",
        "lot 43, withdrawn",
        "lot 44, in a frame that is too long",
    ]
    .map(|text| source.next(text.as_bytes()));
    // Of another stream only a damaged packet may come first: a good one would fix the SSRC.
    out.strange(&[], "an empty frame")?;
    out.strange(&other.next(b"lot 7").damaged(20), "of another stream, damaged")?;
    out.strange(&sent[0].damaged(20), "number 65533, damaged")?;
    out.good(&sent[0])?;
    out.strange(&sent[0].protected, "number 65533 again")?;
    out.good(&sent[1])?;
    out.strange(&other.next(b"lot 8").protected, "of another stream")?;
    out.good(&sent[3])?;
    out.good(&sent[2])?;
    out.strange(&sent[6].within(3000), "too long, with frames in it")?;
    out.strange(&sent[4].protected[..21], "number 1, cut short")?;
    out.good(&sent[4])?;
    out.strange(&sent[1].protected, "number 65534 again")?;
    out.good(&sent[5])?;
    out.cut(&source.next(b"lot 45, one bid"))
}

/// Before most packets a strange frame, each kind in its turn. One packet of six is late; it and the one before it come again.
fn many(packets: usize, from: &mut Source, other: &mut Source, out: &mut Output) -> io::Result<()> {
    let mut late: Option<Packet> = None;
    out.strange(&other.next(b"first").damaged(20), "of another stream, damaged")?;
    for turn in 0..packets {
        let payload = vec![turn as u8; turn * 389 % (MAX_PACKET_LEN - HEADER_LEN + 1)];
        let packet = from.next(&payload);
        match turn % 6 {
            0 => out.strange(&packet.damaged(turn % packet.protected.len()), "damaged")?,
            1 => out.strange(&packet.protected[..turn / 6 % 22], "cut short")?,
            2 => out.strange(&[], "an empty frame")?,
            3 => out.strange(&other.next(&payload).protected, "of another stream")?,
            4 => {
                let len = [2059, 2060, 30_000, 65_535][turn / 6 % 4];
                out.strange(&from.next(b"lost").within(len), "too long, with frames in it")?;
                late = Some(packet);
                continue;
            }
            _ => {}
        }
        out.good(&packet)?;
        if let Some(late) = late.take() {
            out.good(&late)?;
            out.strange(&packet.protected, "again")?;
            out.strange(&late.protected, "again")?;
        }
    }
    if let Some(late) = late {
        out.good(&late)?;
    }
    out.cut(&from.next(b"last"))
}

fn main() -> Result<(), Box<dyn Error>> {
    let arguments: Vec<String> = env::args().skip(1).collect();
    let expected: Box<dyn Write> = match arguments.get(1) {
        Some(name) => Box::new(File::create(name)?),
        None => Box::new(io::sink()),
    };
    let words: Box<dyn Write> = match arguments.first() {
        Some(_) => Box::new(io::sink()),
        None => Box::new(io::stderr()),
    };
    // Without the buffer that standard output has.
    let stream = File::from(io::stdout().as_fd().try_clone_to_owned()?);
    let mut out = Output { stream, expected, words, frames: 0, bytes: 0 };
    let mut source = Source::new(0x0a0b0c0d, FIRST_NUMBER);
    let mut other = Source::new(0x0a0b0c0e, 7);
    fs::write("sale.key", [&KEY[..], &SALT[..]].concat())?;
    match arguments.first() {
        Some(packets) => many(packets.parse()?, &mut source, &mut other, &mut out)?,
        None => lots(&mut source, &mut other, &mut out)?,
    }
    Ok(())
}
