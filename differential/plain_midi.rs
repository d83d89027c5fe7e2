//! The reader of document 02's A.2 and A.6 as a plain program: `plain_midi LOW HIGH < FILE`
//! writes the strokes to standard output, or the number of a refusal to standard
//! error. The baseline for speed. No library. Build: rustc -C opt-level=3 plain_midi.rs

use std::io::{self, Read, Write};

const ROOM: usize = 1_048_576;

const NO_SPACE: u32 = 7;
const NO_TRACK: u32 = 15;
const BROKEN: u32 = 16;
const OUTSIDE: u32 = 17;

const END_OF_TRACK: u8 = 0x2F;

// ---- Chunks ----------------------------------------------------------------

/// The type and the inside of the chunk at the front, and what stands behind it.
fn chunk(bytes: &[u8]) -> Option<(&[u8], &[u8], &[u8])> {
    let length = u32::from_be_bytes(bytes.get(4..8)?.try_into().ok()?) as usize;
    let inside = bytes.get(8..8 + length)?;
    Some((&bytes[..4], inside, &bytes[8 + length..]))
}

/// The inside of the first track chunk.
fn track_of(file: &[u8]) -> Result<&[u8], u32> {
    let (letters, inside, mut rest) = chunk(file).ok_or(NO_TRACK)?;
    if letters != b"MThd" || inside.len() < 6 || inside[..4] != [0, 0, 0, 1] {
        return Err(NO_TRACK);
    }
    while !rest.is_empty() {
        let (letters, inside, behind) = chunk(rest).ok_or(BROKEN)?;
        if letters == b"MTrk" {
            return Ok(inside);
        }
        rest = behind;
    }
    Err(NO_TRACK)
}

// ---- Events ----------------------------------------------------------------

struct Track<'a> {
    bytes: &'a [u8],
    at: usize,
}

impl Track<'_> {
    fn byte(&mut self) -> Result<u8, u32> {
        let byte = *self.bytes.get(self.at).ok_or(BROKEN)?;
        self.at += 1;
        Ok(byte)
    }

    fn data(&mut self) -> Result<u8, u32> {
        let byte = self.byte()?;
        if byte < 0x80 {
            Ok(byte)
        } else {
            Err(BROKEN)
        }
    }

    fn quantity(&mut self) -> Result<usize, u32> {
        let mut value = 0;
        for _ in 0..4 {
            let byte = self.byte()?;
            value = value << 7 | (byte & 0x7F) as usize;
            if byte < 0x80 {
                return Ok(value);
            }
        }
        Err(BROKEN)
    }

    /// Passes over a quantity and so many bytes; the quantity.
    fn block(&mut self) -> Result<usize, u32> {
        let length = self.quantity()?;
        if self.bytes.len() - self.at < length {
            return Err(BROKEN);
        }
        self.at += length;
        Ok(length)
    }
}

fn strokes_of(bytes: &[u8], low: u8, high: u8) -> Result<Vec<u8>, u32> {
    let mut track = Track { bytes, at: 0 };
    let mut strokes = Vec::new();
    let mut running = 0;
    loop {
        track.quantity()?;
        match track.byte()? {
            0xFF => {
                running = 0;
                let kind = track.byte()?;
                let length = track.block()?;
                if kind == END_OF_TRACK {
                    let last = length == 0 && track.at == bytes.len();
                    return if last { Ok(strokes) } else { Err(BROKEN) };
                }
                continue;
            }
            0xF0 | 0xF7 => {
                running = 0;
                track.block()?;
                continue;
            }
            0xF1..=0xFE => return Err(BROKEN),
            status @ 0x80..=0xEF => running = status,
            _ if running == 0 => return Err(BROKEN),
            _ => track.at -= 1,
        }
        let first = track.data()?;
        if running & 0xE0 == 0xC0 {
            continue;
        }
        let second = track.data()?;
        if running & 0xF0 == 0x90 {
            if second == 0 {
                continue;
            }
            if first < low || high < first {
                return Err(OUTSIDE);
            }
            strokes.push(first);
        }
    }
}

// ---- The program -----------------------------------------------------------

fn read(file: &[u8], low: u8, high: u8) -> Result<Vec<u8>, u32> {
    let strokes = strokes_of(track_of(file)?, low, high)?;
    if strokes.len() <= ROOM {
        Ok(strokes)
    } else {
        Err(NO_SPACE)
    }
}

fn main() {
    let bells: Vec<u8> = std::env::args()
        .skip(1)
        .map(|word| word.parse().unwrap())
        .collect();
    let mut file = Vec::new();
    io::stdin().read_to_end(&mut file).unwrap();
    match read(&file, bells[0], bells[1]) {
        Ok(strokes) => io::stdout().write_all(&strokes).unwrap(),
        Err(number) => eprintln!("X {number}"),
    }
}
