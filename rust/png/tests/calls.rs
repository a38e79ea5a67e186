//! The safe calls, where they are used wrongly or the file is not sound.

mod common;

use common::{file, grey_header, packed_zeros};
use png_shim::{crc, crc_of_pixels, write, Chunk, Reader};

fn quiet() -> impl FnMut(usize, usize) {
    |_, _| {}
}

#[test]
fn there_and_back() {
    let pixels: Vec<u32> = (0..300 * 200u32).map(|at| at.wrapping_mul(2_654_435_761)).collect();
    let chunk = |name: &[u8; 4], data: &[u8], behind| Chunk { name: *name, data: data.to_vec(), behind };
    let chunks = [chunk(b"gAMA", &[0, 0, 1, 0], false), chunk(b"tEXt", b"", false), chunk(b"tEXt", b"a\0b", true)];
    let mut told = Vec::new();
    let bytes = write(300, &pixels, &chunks, &mut |done, total| told.push((done, total))).unwrap();
    assert_eq!(told, [(64, 200), (128, 200), (192, 200), (200, 200)]);
    let reader = Reader::open(&bytes).unwrap();
    let header = reader.header();
    assert_eq!((header.width, header.height, header.bits, header.interlaced, header.grey), (300, 200, 8, false, false));
    let (mut back, mut heard) = (vec![0; pixels.len()], Vec::new());
    assert_eq!(reader.read(&mut back, &mut |done, total| heard.push((done, total))).unwrap(), chunks);
    assert_eq!((back, heard), (pixels, told));
}

#[test]
fn room_of_another_size_is_refused() {
    let bytes = write(3, &[7; 6], &[], &mut quiet()).unwrap();
    for room in [0, 5, 7] {
        let words = Reader::open(&bytes).unwrap().read(&mut vec![0; room], &mut quiet()).unwrap_err();
        assert_eq!(words, "the room lent is not the picture's");
    }
}

#[test]
fn a_picture_that_cannot_be_written() {
    assert!(write(0, &[], &[], &mut quiet()).unwrap_err().contains("whole rows"));
    assert!(write(2, &[1, 2, 3], &[], &mut quiet()).unwrap_err().contains("whole rows"));
    assert_eq!(write(2, &[], &[], &mut quiet()).unwrap_err(), "Image height is zero in IHDR; Invalid IHDR data");
}

#[test]
fn sides_that_are_told_and_not_decoded() {
    for (width, height) in [(4097, 1), (1, 4097), (0x7FFF_FFFF, 0x7FFF_FFFF)] {
        let bytes = file(&[(b"IHDR", &grey_header(width, height)), (b"IDAT", &packed_zeros(99)), (b"IEND", b"")]);
        let reader = Reader::open(&bytes).unwrap();
        assert_eq!((reader.header().width, reader.header().height), (width, height));
        let mut room = vec![0; if width < 5000 { (width * height) as usize } else { 1 }];
        assert!(reader.read(&mut room, &mut quiet()).is_err());
    }
}

/// Whoever stops in the middle leaves nothing behind: the reader is closed on the way.
#[test]
fn a_panic_while_telling() {
    let bytes = write(1, &[7; 200], &[], &mut quiet()).unwrap();
    let stopped = std::panic::catch_unwind(|| {
        let reader = Reader::open(&bytes).unwrap();
        reader.read(&mut [0; 200], &mut |_, _| std::panic::panic_any("enough"))
    });
    assert_eq!(stopped.unwrap_err().downcast_ref(), Some(&"enough"));
}

#[test]
fn known_sums() {
    assert_eq!((crc(b""), crc(b"123456789")), (0, 0xCBF4_3926));
    assert_eq!(crc_of_pixels(&[0x3433_3231, 0x3837_3635]), crc(b"12345678"));
}
