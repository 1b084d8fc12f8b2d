//! Says in words what the sale desk wrote: reads plain media packets in RFC 4571's framing from standard input, and has a line for each.
use std::io::{self, Read};

const HEADER_LEN: usize = 12;

fn main() -> Result<(), Box<dyn std::error::Error>> {
    let mut input = Vec::new();
    io::stdin().read_to_end(&mut input)?;
    let mut rest = &input[..];
    let mut packets = 0;
    while let [high, low, behind @ ..] = rest {
        let len = usize::from(u16::from_be_bytes([*high, *low]));
        if len < HEADER_LEN || behind.len() < len {
            return Err("this is no whole packet".into());
        }
        let (packet, behind) = behind.split_at(len);
        let number = u16::from_be_bytes([packet[2], packet[3]]);
        let text = String::from_utf8_lossy(&packet[HEADER_LEN..]);
        println!("{len} bytes, number {number}: {text}");
        packets += 1;
        rest = behind;
    }
    println!("{packets} packets");
    Ok(())
}
