//! PNG, as small as it can be: eight bits a sample, no filter, and zlib blocks that are stored as they are.

/// The samples of a pixel.
#[derive(Clone, Copy)]
pub enum Samples {
    Grey,
    Rgb,
}

/// The most bytes of one stored block.
const BLOCK: usize = 65535;

/// The bytes of a PNG file. The samples stand row by row; those that are missing are 0, and surplus is left out.
pub fn encode(width: usize, height: usize, kind: Samples, samples: &[u8]) -> Vec<u8> {
    let (colour, each) = match kind {
        Samples::Grey => (0, 1),
        Samples::Rgb => (2, 3),
    };
    let mut header = Vec::with_capacity(13);
    header.extend((width as u32).to_be_bytes());
    header.extend((height as u32).to_be_bytes());
    header.extend([8, colour, 0, 0, 0]);
    let mut file = b"\x89PNG\r\n\x1a\n".to_vec();
    chunk(&mut file, b"IHDR", &header);
    chunk(&mut file, b"IDAT", &zlib(&rows(width * each, height, samples)));
    chunk(&mut file, b"IEND", &[]);
    file
}

/// Each row after a byte that says that it is not filtered.
fn rows(stride: usize, height: usize, samples: &[u8]) -> Vec<u8> {
    let mut out = Vec::with_capacity((stride + 1) * height);
    for row in samples.chunks(stride.max(1)).take(height) {
        out.push(0);
        out.extend(row);
    }
    out.resize((stride + 1) * height, 0);
    out
}

/// A zlib stream of stored blocks.
fn zlib(data: &[u8]) -> Vec<u8> {
    let mut out = vec![0x78, 0x01];
    let count = data.len().div_ceil(BLOCK);
    for (place, block) in (1..).zip(data.chunks(BLOCK)) {
        let length = block.len() as u16;
        out.push(u8::from(place == count));
        out.extend(length.to_le_bytes());
        out.extend((!length).to_le_bytes());
        out.extend(block);
    }
    out.extend(adler(data).to_be_bytes());
    out
}

fn chunk(file: &mut Vec<u8>, name: &[u8; 4], data: &[u8]) {
    file.extend((data.len() as u32).to_be_bytes());
    file.extend(name);
    file.extend(data);
    file.extend(crc(&[name, data]).to_be_bytes());
}

/// The Adler checksum of a zlib stream.
fn adler(data: &[u8]) -> u32 {
    let (mut low, mut high) = (1u32, 0u32);
    // So many bytes leave both sums under 2^32.
    for part in data.chunks(5552) {
        for byte in part {
            low += u32::from(*byte);
            high += low;
        }
        low %= 65521;
        high %= 65521;
    }
    high << 16 | low
}

/// The cyclic checksum of a chunk's parts.
fn crc(parts: &[&[u8]]) -> u32 {
    let mut sum = u32::MAX;
    for byte in parts.iter().copied().flatten() {
        sum = CRC[(sum as u8 ^ byte) as usize] ^ (sum >> 8);
    }
    !sum
}

const CRC: [u32; 256] = {
    let mut table = [0; 256];
    let mut place = 0;
    while place < 256 {
        let mut sum = place as u32;
        let mut bit = 0;
        while bit < 8 {
            sum = if sum & 1 == 1 { 0xedb8_8320 ^ (sum >> 1) } else { sum >> 1 };
            bit += 1;
        }
        table[place] = sum;
        place += 1;
    }
    table
};

#[cfg(test)]
mod tests {
    use super::*;

    #[test]
    fn checksums_are_those_of_the_standards() {
        assert_eq!(crc(&[b"1234", b"56789"]), 0xcbf4_3926);
        assert_eq!(crc(&[b"IEND", b""]), 0xae42_6082);
        assert_eq!(adler(b"Wikipedia"), 0x11e6_0398);
    }

    #[test]
    fn long_data_is_cut_into_blocks_and_the_last_is_marked() {
        let stream = zlib(&vec![7; BLOCK + 2]);
        assert_eq!(stream[2..7], [0, 0xff, 0xff, 0, 0]);
        assert_eq!(stream[2 + 5 + BLOCK..2 + 5 + BLOCK + 7], [1, 2, 0, 0xfd, 0xff, 7, 7]);
        assert_eq!(stream.len(), 2 + 5 + BLOCK + 5 + 2 + 4);
    }
}
