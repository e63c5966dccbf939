//! Classic libpcap files of Ethernet frames: read, and written in each form.

/// The bytes before the first frame, and before each.
const FILE_HEADER: usize = 24;
const FRAME_HEADER: usize = 16;
/// Times in microseconds or nanoseconds; they don't matter here.
const MAGIC: [u32; 2] = [0xA1B2_C3D4, 0xA1B2_3C4D];
pub const ETHERNET: u32 = 1;

/// The byte order of a file's numbers, and its stamps.
#[derive(Clone, Copy, PartialEq, Eq, Debug)]
pub struct Form {
    pub big: bool,
    pub nanoseconds: bool,
}

pub const FORMS: [Form; 4] = [
    Form { big: false, nanoseconds: false },
    Form { big: true, nanoseconds: false },
    Form { big: false, nanoseconds: true },
    Form { big: true, nanoseconds: true },
];

/// A record to be written: its bytes, and the length that the frame had.
#[derive(Clone, Debug)]
pub struct Record {
    pub bytes: Vec<u8>,
    pub original: u32,
}

impl Record {
    /// A frame that was captured whole.
    pub fn whole(bytes: Vec<u8>) -> Record {
        let original = bytes.len() as u32;
        Record { bytes, original }
    }
}

impl Form {
    fn number(self, x: u32) -> [u8; 4] {
        if self.big {
            x.to_be_bytes()
        } else {
            x.to_le_bytes()
        }
    }

    fn half(self, x: u16) -> [u8; 2] {
        if self.big {
            x.to_be_bytes()
        } else {
            x.to_le_bytes()
        }
    }

    /// A file's header with this link type: version 2.4, no time zone, no accuracy.
    pub fn header(self, link: u32) -> Vec<u8> {
        let mut file = self.number(MAGIC[usize::from(self.nanoseconds)]).to_vec();
        file.extend(self.half(2));
        file.extend(self.half(4));
        for x in [0, 0, 262_144, link] {
            file.extend(self.number(x));
        }
        file
    }

    /// A record with its header; the stamps are of no account.
    pub fn record(self, record: &Record) -> Vec<u8> {
        let stamp = [1_700_000_000, record.bytes.len() as u32 % 1_000_000];
        let lengths = [record.bytes.len() as u32, record.original];
        let numbers = stamp.into_iter().chain(lengths);
        let mut bytes: Vec<u8> = numbers.flat_map(|x| self.number(x)).collect();
        bytes.extend(&record.bytes);
        bytes
    }

    pub fn file(self, records: &[Record]) -> Vec<u8> {
        let mut file = self.header(ETHERNET);
        for record in records {
            file.extend(self.record(record));
        }
        file
    }
}

/// The frames of a capture, or what is wrong with it.
pub fn frames(file: &[u8]) -> Result<Vec<Vec<u8>>, String> {
    if file.len() < FILE_HEADER {
        return Err("the file ends inside its header".to_string());
    }
    let little = |at: usize| u32::from_le_bytes(file[at..at + 4].try_into().expect("four bytes"));
    let big = |at: usize| u32::from_be_bytes(file[at..at + 4].try_into().expect("four bytes"));
    let number: &dyn Fn(usize) -> u32 = if MAGIC.contains(&little(0)) {
        &little
    } else if MAGIC.contains(&big(0)) {
        &big
    } else {
        return Err("no libpcap file".to_string());
    };
    if number(20) & 0xFFFF != ETHERNET {
        return Err(format!("link type {}, not Ethernet", number(20)));
    }
    let mut frames = Vec::new();
    let mut at = FILE_HEADER;
    while at < file.len() {
        if file.len() - at < FRAME_HEADER {
            return Err("the file ends inside a frame's header".to_string());
        }
        let (kept, length) = (number(at + 8) as usize, number(at + 12) as usize);
        at += FRAME_HEADER;
        if kept != length {
            return Err(format!("a frame of {length} bytes was cut to {kept}"));
        }
        if file.len() - at < kept {
            return Err("the file ends inside a frame".to_string());
        }
        frames.push(file[at..at + kept].to_vec());
        at += kept;
    }
    Ok(frames)
}
