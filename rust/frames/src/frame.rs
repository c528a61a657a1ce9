//! Frames and their encoding.

use crate::hex;

/// A frame. Its first byte is its kind.
#[derive(Clone, Copy, Debug, PartialEq, Eq)]
pub enum Frame<'a> {
    /// 01: "pair, being source length (2 bytes, high first), source, target length, target".
    Pair { source: &'a [u8], target: &'a [u8] },
    /// 02: "statuses of the open list".
    Statuses,
    /// 03: "close it as a map leg".
    CloseMap,
    /// 04: "close as a relocate leg".
    CloseRelocates,
    /// 05: "path out".
    Out(&'a [u8]),
    /// 06: "path home".
    Home(&'a [u8]),
    /// 07: "count of 05 frames answered 00".
    Count,
}

impl<'a> Frame<'a> {
    /// Decodes a frame; `None` if it is not well formed.
    pub fn read(bytes: &'a [u8]) -> Option<Self> {
        let (kind, rest) = bytes.split_first()?;
        match (kind, rest) {
            (1, _) => read_pair(rest),
            (2, []) => Some(Frame::Statuses),
            (3, []) => Some(Frame::CloseMap),
            (4, []) => Some(Frame::CloseRelocates),
            (5, path) => Some(Frame::Out(path)),
            (6, path) => Some(Frame::Home(path)),
            (7, []) => Some(Frame::Count),
            _ => None,
        }
    }

    pub fn kind(&self) -> u8 {
        match self {
            Frame::Pair { .. } => 1,
            Frame::Statuses => 2,
            Frame::CloseMap => 3,
            Frame::CloseRelocates => 4,
            Frame::Out(_) => 5,
            Frame::Home(_) => 6,
            Frame::Count => 7,
        }
    }

    /// Encodes the frame. A source or target must have at most 65,535 bytes.
    pub fn bytes(&self) -> Vec<u8> {
        let mut bytes = vec![self.kind()];
        match self {
            Frame::Pair { source, target } => {
                for end in [source, target] {
                    let length = u16::try_from(end.len()).expect("a length of two bytes");
                    bytes.extend(length.to_be_bytes());
                    bytes.extend_from_slice(end);
                }
            }
            Frame::Out(path) | Frame::Home(path) => bytes.extend_from_slice(path),
            Frame::Statuses | Frame::CloseMap | Frame::CloseRelocates | Frame::Count => {}
        }
        bytes
    }

    /// The frame as a line of hexadecimal digits, without its newline.
    pub fn line(&self) -> Vec<u8> {
        let mut line = Vec::new();
        hex::write(&self.bytes(), &mut line);
        line
    }
}

/// Decodes two texts, each preceded by its length, that fill the rest of the frame.
fn read_pair(rest: &[u8]) -> Option<Frame<'_>> {
    let (source, rest) = read_text(rest)?;
    match read_text(rest)? {
        (target, []) => Some(Frame::Pair { source, target }),
        _ => None,
    }
}

/// Splits off a text that is preceded by its length.
fn read_text(rest: &[u8]) -> Option<(&[u8], &[u8])> {
    let (length, rest) = rest.split_first_chunk()?;
    rest.split_at_checked(usize::from(u16::from_be_bytes(*length)))
}

#[cfg(test)]
mod tests {
    use super::Frame;

    #[test]
    fn frames_round_trip() {
        for frame in [
            Frame::Pair { source: b"/A", target: b"" },
            Frame::Pair { source: &[0; 300], target: b"/B" },
            Frame::Statuses,
            Frame::CloseMap,
            Frame::CloseRelocates,
            Frame::Out(b"/A"),
            Frame::Home(b""),
            Frame::Count,
        ] {
            assert_eq!(Frame::read(&frame.bytes()), Some(frame));
        }
    }

    #[test]
    fn bytes_that_are_not_well_formed() {
        for bytes in [
            &[][..],
            &[0],
            &[8],
            &[0x81],
            &[0xFF],
            &[1],
            &[1, 0],
            &[1, 0, 0],
            &[1, 0, 0, 0],
            &[1, 0, 0, 0, 0, 0],
            &[1, 0, 1, 0, 0],
            &[1, 0, 0, 0, 1],
            &[1, 1, 0, 0, 0],
            &[2, 0],
            &[3, 3],
            &[4, 0],
            &[7, 0],
        ] {
            assert_eq!(Frame::read(bytes), None, "{bytes:?}");
        }
    }
}
