//! Space packets and their PUS headers: what octets are, and the octets of what is made.

/// The most octets that a packet has.
pub const LONGEST_PACKET: usize = 65_542;
/// The octets of a telecommand, and of telemetry, beside the body.
pub const TELECOMMAND_FRAME: usize = 13;
pub const TELEMETRY_FRAME: usize = 19;

const IDLE_APID: u16 = 2047;
const PUS_VERSION: u8 = 2;
const CHECKSUMS: [u16; 256] = checksum_table();

/// What shifting each octet into an empty register leaves there.
const fn checksum_table() -> [u16; 256] {
    let mut table = [0; 256];
    let mut octet = 0;
    while octet < 256 {
        let mut register = (octet as u16) << 8;
        let mut bit = 0;
        while bit < 8 {
            let carry = register & 0x8000 != 0;
            register = (register << 1) ^ if carry { 0x1021 } else { 0 };
            bit += 1;
        }
        table[octet] = register;
        octet += 1;
    }
    table
}

/// The checksum of octets.
pub fn checksum(octets: &[u8]) -> u16 {
    octets.iter().fold(0xffff, |register, &octet| {
        (register << 8) ^ CHECKSUMS[usize::from((register >> 8) as u8 ^ octet)]
    })
}

/// The number of 16 bits at a place.
pub fn number_at(octets: &[u8], at: usize) -> u16 {
    u16::from_be_bytes([octets[at], octets[at + 1]])
}

/// What octets are.
pub enum Content<'a> {
    Noise,
    Idle,
    Packet(Packet<'a>),
}

/// A packet that was read: its data field, and what its header says.
pub struct Packet<'a> {
    pub is_telecommand: bool,
    pub apid: u16,
    pub data: &'a [u8],
}

/// A telecommand's or telemetry's type and body, and the source or the destination that it has; of a
/// telecommand also its flags.
pub struct Message<'a> {
    pub peer: u16,
    pub flags: u8,
    pub service: u8,
    pub subtype: u8,
    pub body: &'a [u8],
}

/// Says what octets are as a packet.
pub fn read(octets: &[u8]) -> Content<'_> {
    let length = octets.len();
    if length < 7 || octets[0] >> 5 != 0 || length != 7 + usize::from(number_at(octets, 4)) {
        return Content::Noise;
    }
    let apid = number_at(octets, 0) & 0x07ff;
    if apid == IDLE_APID {
        return Content::Idle;
    }
    if octets[2] >> 6 != 0b11 || octets[0] & 0x08 == 0 || length < 8 {
        return Content::Noise;
    }
    let (checked, last) = octets.split_at(length - 2);
    if checksum(checked) != number_at(last, 0) {
        return Content::Noise;
    }
    let is_telecommand = octets[0] & 0x10 != 0;
    let data = &checked[6..];
    Content::Packet(Packet { is_telecommand, apid, data })
}

impl<'a> Packet<'a> {
    /// The packet as a telecommand, or as telemetry.
    pub fn message(&self, as_telecommand: bool) -> Option<Message<'a>> {
        let header = if as_telecommand { 5 } else { 11 };
        if self.is_telecommand != as_telecommand || self.data.len() < header {
            return None;
        }
        let (header, body) = self.data.split_at(header);
        let [version_and_flags, service, subtype, ..] = *header else { return None };
        let peer = number_at(header, if as_telecommand { 3 } else { 5 });
        let flags = version_and_flags & 0x0f;
        let message = Message { peer, flags, service, subtype, body };
        (version_and_flags >> 4 == PUS_VERSION).then_some(message)
    }
}

/// The headers of a packet that is made.
pub struct Headers {
    pub apid: u16,
    pub count: u16,
    pub service: u8,
    pub subtype: u8,
}

/// Makes a telecommand, whose body is these pieces.
pub fn telecommand(headers: &Headers, flags: u8, source: u16, body: &[&[u8]]) -> Vec<u8> {
    let [high, low] = source.to_be_bytes();
    let secondary = [PUS_VERSION << 4 | flags, headers.service, headers.subtype, high, low];
    packet(0x1800, headers, &secondary, body)
}

/// Makes telemetry, whose body is these pieces.
pub fn telemetry(
    headers: &Headers,
    counter: u16,
    destination: u16,
    time: u32,
    body: &[&[u8]],
) -> Vec<u8> {
    let mut secondary =
        [PUS_VERSION << 4, headers.service, headers.subtype, 0, 0, 0, 0, 0, 0, 0, 0];
    secondary[3..5].copy_from_slice(&counter.to_be_bytes());
    secondary[5..7].copy_from_slice(&destination.to_be_bytes());
    secondary[7..].copy_from_slice(&time.to_be_bytes());
    packet(0x0800, headers, &secondary, body)
}

fn packet(kind: u16, headers: &Headers, secondary: &[u8], body: &[&[u8]]) -> Vec<u8> {
    let data = secondary.len() + body.iter().map(|piece| piece.len()).sum::<usize>();
    let mut octets = Vec::with_capacity(6 + data + 2);
    octets.extend((kind | headers.apid).to_be_bytes());
    octets.extend((0xc000 | headers.count).to_be_bytes());
    octets.extend((data as u16 + 1).to_be_bytes());
    octets.extend(secondary);
    for piece in body {
        octets.extend(*piece);
    }
    let checksum = checksum(&octets);
    octets.extend(checksum.to_be_bytes());
    octets
}
