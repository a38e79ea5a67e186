//! The usual names of numbers in records and headers.

/// A raster operation by its byte, bits 16 to 23 of the field, as wingdi.h has it. There, 0xAA has no name; programs
/// that call MaskBlt call it DSTCOPY.
pub fn raster(byte: u8) -> Option<&'static str> {
    Some(match byte {
        0x00 => "BLACKNESS",
        0x11 => "NOTSRCERASE",
        0x33 => "NOTSRCCOPY",
        0x44 => "SRCERASE",
        0x55 => "DSTINVERT",
        0x5A => "PATINVERT",
        0x66 => "SRCINVERT",
        0x88 => "SRCAND",
        0xAA => "DSTCOPY",
        0xBB => "MERGEPAINT",
        0xC0 => "MERGECOPY",
        0xCC => "SRCCOPY",
        0xEE => "SRCPAINT",
        0xF0 => "PATCOPY",
        0xFB => "PATPAINT",
        0xFF => "WHITENESS",
        _ => return None,
    })
}

/// A DIB's compression (document 004 and MS-WMF, 2.1.1.7).
pub fn compression(number: u32) -> Option<&'static str> {
    Some(match number {
        0 => "BI_RGB",
        1 => "BI_RLE8",
        2 => "BI_RLE4",
        3 => "BI_BITFIELDS",
        4 => "BI_JPEG",
        5 => "BI_PNG",
        6 => "BI_ALPHABITFIELDS",
        11 => "BI_CMYK",
        12 => "BI_CMYKRLE8",
        13 => "BI_CMYKRLE4",
        _ => return None,
    })
}

/// A DIB's header, by the number of its bytes.
pub fn header(size: u32) -> Option<&'static str> {
    Some(match size {
        12 => "BITMAPCOREHEADER",
        40 => "BITMAPINFOHEADER",
        52 => "BITMAPV2INFOHEADER",
        56 => "BITMAPV3INFOHEADER",
        64 => "OS22XBITMAPHEADER",
        108 => "BITMAPV4HEADER",
        124 => "BITMAPV5HEADER",
        _ => return None,
    })
}

/// What a colour table holds (MS-EMF, 2.1.9).
pub fn usage(number: u32) -> Option<&'static str> {
    Some(match number {
        0 => "DIB_RGB_COLORS",
        1 => "DIB_PAL_COLORS",
        2 => "DIB_PAL_INDICES",
        _ => return None,
    })
}

/// A number with its name in brackets, where it has one.
pub fn with(number: impl std::fmt::Display, name: Option<&str>) -> String {
    match name {
        Some(name) => format!("{number} ({name})"),
        None => number.to_string(),
    }
}

#[cfg(test)]
mod tests {
    use super::*;

    /// The bytes are those of wingdi.h's whole codes.
    #[test]
    fn raster_operations_by_their_codes() {
        let codes: [(u32, &str); 15] = [
            (0x00CC0020, "SRCCOPY"),
            (0x00EE0086, "SRCPAINT"),
            (0x008800C6, "SRCAND"),
            (0x00660046, "SRCINVERT"),
            (0x00440328, "SRCERASE"),
            (0x00330008, "NOTSRCCOPY"),
            (0x001100A6, "NOTSRCERASE"),
            (0x00C000CA, "MERGECOPY"),
            (0x00BB0226, "MERGEPAINT"),
            (0x00F00021, "PATCOPY"),
            (0x00FB0A09, "PATPAINT"),
            (0x005A0049, "PATINVERT"),
            (0x00550009, "DSTINVERT"),
            (0x00000042, "BLACKNESS"),
            (0x00FF0062, "WHITENESS"),
        ];
        for (code, name) in codes {
            assert_eq!(raster((code >> 16) as u8), Some(name));
        }
        assert_eq!((0..=255).filter_map(raster).count(), codes.len() + 1);
    }

    #[test]
    fn numbers_with_and_without_names() {
        assert_eq!(with(5, compression(5)), "5 (BI_PNG)");
        assert_eq!(with(7, compression(7)), "7");
        assert_eq!(with(12, header(12)), "12 (BITMAPCOREHEADER)");
        assert_eq!(with(1, usage(1)), "1 (DIB_PAL_COLORS)");
        assert_eq!((header(41), usage(3)), (None, None));
    }
}
