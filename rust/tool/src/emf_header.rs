//! What an EMF file's header record says of the whole picture (MS-EMF, 2.3.4.2). None of it is honoured: coordinates are
//! sheet pixels.

use crate::bytes::{i32_at, u16_at, u32_at};

#[derive(Clone, Debug, PartialEq, Eq)]
pub struct EmfHeader {
    /// Left, top, right, bottom in pixels of the device for which the file was made; all of them included.
    pub bounds: [i32; 4],
    /// Likewise in hundredths of a millimetre.
    pub frame: [i32; 4],
    /// That device's width and height in pixels.
    pub device: [i32; 2],
    pub millimetres: [i32; 2],
    /// What the program has put down of itself and of the drawing.
    pub description: Vec<String>,
}

impl EmfHeader {
    /// None for a record that is too short to be one.
    pub fn read(record: &[u8]) -> Option<EmfHeader> {
        let four = |at| {
            Some([i32_at(record, at)?, i32_at(record, at + 4)?, i32_at(record, at + 8)?, i32_at(record, at + 12)?])
        };
        let two = |at| Some([i32_at(record, at)?, i32_at(record, at + 4)?]);
        Some(EmfHeader {
            bounds: four(8)?,
            frame: four(24)?,
            device: two(72)?,
            millimetres: two(80)?,
            description: description(record).unwrap_or_default(),
        })
    }
}

/// 16-bit characters; a zero ends each part. None where they do not lie in the record.
fn description(record: &[u8]) -> Option<Vec<String>> {
    let (count, offset) = (u32_at(record, 60)? as usize, u32_at(record, 64)? as usize);
    let bytes = record.get(offset..offset.checked_add(count.checked_mul(2)?)?)?;
    let characters: Vec<u16> = (0..count).filter_map(|place| u16_at(bytes, 2 * place)).collect();
    let parts = characters.split(|character| *character == 0).filter(|part| !part.is_empty());
    Some(parts.map(String::from_utf16_lossy).collect())
}

#[cfg(test)]
mod tests {
    use super::*;

    /// A record of 88 bytes in which each 32-bit field holds its own place, with a description behind it.
    fn header(text: &[u16]) -> Vec<u8> {
        let mut bytes: Vec<u8> = (0..22u32).flat_map(|at| (4 * at).to_le_bytes()).collect();
        bytes[60..64].copy_from_slice(&(text.len() as u32).to_le_bytes());
        bytes[64..68].copy_from_slice(&88u32.to_le_bytes());
        bytes.extend(text.iter().flat_map(|character| character.to_le_bytes()));
        bytes
    }

    #[test]
    fn fields_stand_at_their_places() {
        let text: Vec<u16> = "Höhen 2\0depth bands\0\0".encode_utf16().collect();
        let read = EmfHeader::read(&header(&text)).unwrap();
        assert_eq!((read.bounds, read.frame), ([8, 12, 16, 20], [24, 28, 32, 36]));
        assert_eq!((read.device, read.millimetres), ([72, 76], [80, 84]));
        assert_eq!(read.description, ["Höhen 2", "depth bands"]);
        assert_eq!(EmfHeader::read(&header(&[])).unwrap().description, Vec::<String>::new());
    }

    #[test]
    fn any_bytes_are_read() {
        let whole = header(&[0x41, 0xD800, 0x42]);
        assert_eq!(EmfHeader::read(&whole).unwrap().description, ["A\u{FFFD}B"]);
        assert_eq!(EmfHeader::read(&whole[..87]), None);
        for (count, offset) in [(4, 88), (3, 89), (u32::MAX, 0), (1, u32::MAX), (0, u32::MAX)] {
            let mut wrong = whole.clone();
            wrong[60..68].copy_from_slice(&[count, offset].map(u32::to_le_bytes).concat());
            assert!(EmfHeader::read(&wrong).unwrap().description.is_empty(), "{count} at {offset}");
        }
    }
}
