//! Pictures as PNG: one byte a pixel, which names one of 256 colours, uncompressed; and the base 64 that brings one into a page.

/// A colour: red, green and blue.
pub(crate) type Color = [u8; 3];

/// The most bytes of a block that is stored as it is.
const BLOCK: usize = 65_535;

/// A picture of rows of this many pixels, from the top; what is beyond the last whole row is left out.
pub(crate) fn png(width: u32, pixels: &[u8], colors: &[Color; 256]) -> Vec<u8> {
    let rows = pixels.chunks_exact(width.max(1) as usize);
    let mut head = Vec::new();
    head.extend(width.to_be_bytes());
    head.extend((rows.len() as u32).to_be_bytes());
    // Eight bits a pixel, by the list of colours, and nothing out of the ordinary.
    head.extend([8, 3, 0, 0, 0]);
    // Before each row stands that it is not filtered.
    let filtered: Vec<u8> = rows.flat_map(|row| [&[0], row].concat()).collect();

    let mut png = b"\x89PNG\r\n\x1a\n".to_vec();
    chunk(b"IHDR", &head, &mut png);
    chunk(b"PLTE", &colors.concat(), &mut png);
    chunk(b"IDAT", &stored(&filtered), &mut png);
    chunk(b"IEND", b"", &mut png);
    png
}

/// A chunk of a PNG.
fn chunk(name: &[u8; 4], data: &[u8], to: &mut Vec<u8>) {
    let named = [name, data].concat();
    to.extend((data.len() as u32).to_be_bytes());
    to.extend(&named);
    to.extend(crc(&named).to_be_bytes());
}

/// Bytes in zlib's form, not compressed.
fn stored(bytes: &[u8]) -> Vec<u8> {
    let mut to = vec![0x78, 0x01];
    let mut blocks = bytes.chunks(BLOCK).peekable();
    while let Some(block) = blocks.next() {
        let len = block.len() as u16;
        to.push(u8::from(blocks.peek().is_none()));
        to.extend(len.to_le_bytes());
        to.extend((!len).to_le_bytes());
        to.extend(block);
    }
    to.extend(adler(bytes).to_be_bytes());
    to
}

/// The check sum of a chunk.
fn crc(bytes: &[u8]) -> u32 {
    let mut table = [0_u32; 256];
    for (byte, entry) in (0..).zip(&mut table) {
        *entry = (0..8).fold(byte, |crc, _| match crc & 1 {
            1 => crc >> 1 ^ 0xedb8_8320,
            _ => crc >> 1,
        });
    }
    !bytes.iter().fold(u32::MAX, |crc, byte| {
        let place = (crc as u8 ^ byte) as usize;
        crc >> 8 ^ table.get(place).copied().unwrap_or(0)
    })
}

/// The check sum of what zlib has.
fn adler(bytes: &[u8]) -> u32 {
    let (mut a, mut b) = (1_u32, 0_u32);
    // So many bytes at a time that neither sum runs over.
    for piece in bytes.chunks(5_552) {
        for byte in piece {
            a += u32::from(*byte);
            b += a;
        }
        (a, b) = (a % 65_521, b % 65_521);
    }
    b << 16 | a
}

/// Bytes as text.
pub(crate) fn base64(bytes: &[u8]) -> String {
    const LETTERS: &[u8; 64] = b"ABCDEFGHIJKLMNOPQRSTUVWXYZabcdefghijklmnopqrstuvwxyz0123456789+/";
    let mut text = String::with_capacity(bytes.len() / 3 * 4 + 4);
    for piece in bytes.chunks(3) {
        let at = |place: usize| u32::from(piece.get(place).copied().unwrap_or(0));
        let bits = at(0) << 16 | at(1) << 8 | at(2);
        for letter in 0..4 {
            let place = (bits >> (18 - 6 * letter) & 63) as usize;
            text.push(match LETTERS.get(place) {
                Some(other) if letter as usize <= piece.len() => char::from(*other),
                _ => '=',
            });
        }
    }
    text
}

#[cfg(test)]
mod tests {
    use super::*;

    #[test]
    fn check_sums() {
        assert_eq!(crc(b"123456789"), 0xcbf4_3926);
        assert_eq!(crc(b"IEND"), 0xae42_6082);
        assert_eq!(adler(b"Wikipedia"), 0x11e6_0398);
        assert_eq!(adler(&[255; 1_000_000]), {
            let (a, b) = (1..=1_000_000_u64).fold((1, 0), |(a, b), _| {
                ((a + 255) % 65_521, (b + a + 255) % 65_521)
            });
            (b << 16 | a) as u32
        });
    }

    #[test]
    fn texts() {
        let texts = [
            &b""[..],
            b"f",
            b"fo",
            b"foo",
            b"foob",
            b"fooba",
            b"\xff\xfe\xfd",
        ];
        assert_eq!(
            texts.map(base64),
            ["", "Zg==", "Zm8=", "Zm9v", "Zm9vYg==", "Zm9vYmE=", "//79"]
        );
    }

    #[test]
    fn blocks() {
        let bytes = [7; BLOCK + 2];
        let stored = stored(&bytes);
        assert_eq!(stored.len(), 2 + 5 + BLOCK + 5 + 2 + 4);
        assert_eq!(stored[..7], [0x78, 1, 0, 0xff, 0xff, 0, 0]);
        assert_eq!(stored[7 + BLOCK..][..7], [1, 2, 0, 0xfd, 0xff, 7, 7]);
        let png = png(3, &[1, 2, 3, 4, 5, 6], &[[9, 8, 7]; 256]);
        assert_eq!(png[..16], *b"\x89PNG\r\n\x1a\n\0\0\0\rIHDR");
        assert_eq!(png[16..24], [0, 0, 0, 3, 0, 0, 0, 2]);
        // Chunk by chunk: 8 bytes, then head, colours, two rows with a byte before each, and the end.
        assert_eq!(png.len(), 8 + 25 + (12 + 768) + (12 + 2 + 5 + 8 + 4) + 12);
    }
}
