//! The exchange of bytes between I8 and UTF-EBCDIC.

/// Document 01's table: the I8 byte of each UTF-EBCDIC byte in order.
const TABLE: &str = "
    00 01 02 03 9C 09 86 7F 97 8D 8E 0B 0C 0D 0E 0F
    10 11 12 13 9D 85 08 87 18 19 92 8F 1C 1D 1E 1F
    80 81 82 83 84 0A 17 1B 88 89 8A 8B 8C 05 06 07
    90 91 16 93 94 95 96 04 98 99 9A 9B 14 15 9E 1A
    20 FC C0 C1 C2 C3 C4 C5 C6 C7 FE 2E 3C 28 2B 7C
    26 FD C8 C9 CA CB CC CD CE CF 21 24 2A 29 3B 5E
    2D 2F D0 D1 D2 D3 D4 D5 D6 D7 F8 2C 25 5F 3E 3F
    F9 D8 D9 DA DB DC DD DE DF 60 3A 23 40 27 3D 22
    A0 61 62 63 64 65 66 67 68 69 E0 E8 A1 A2 A3 A4
    A5 6A 6B 6C 6D 6E 6F 70 71 72 E1 E9 A6 A7 A8 A9
    AA 7E 73 74 75 76 77 78 79 7A E2 EA AB 5B AC AD
    FA FB F0 F1 F2 F3 F4 F5 F6 F7 E3 EB AE 5D AF B0
    7B 41 42 43 44 45 46 47 48 49 E4 EC B1 B2 B3 B4
    7D 4A 4B 4C 4D 4E 4F 50 51 52 E5 ED B5 B6 B7 B8
    5C FF 53 54 55 56 57 58 59 5A E6 EE B9 BA BB BC
    30 31 32 33 34 35 36 37 38 39 E7 EF BD BE BF 9F
";

pub static UTF_EBCDIC_TO_I8: [u8; 256] = parse(TABLE);

pub static I8_TO_UTF_EBCDIC: [u8; 256] = invert(parse(TABLE));

/// The bytes of 256 pairs of hex digits. A slip of the pen stops the build.
const fn parse(text: &str) -> [u8; 256] {
    let text = text.as_bytes();
    let mut table = [0; 256];
    let mut entry = 0;
    let mut at = 0;
    while at < text.len() {
        if !text[at].is_ascii_whitespace() {
            table[entry] = digit(text[at]) * 16 + digit(text[at + 1]);
            entry += 1;
            at += 1;
        }
        at += 1;
    }
    assert!(entry == 256);
    table
}

const fn digit(character: u8) -> u8 {
    match character {
        b'0'..=b'9' => character - b'0',
        b'A'..=b'F' => character - b'A' + 10,
        _ => panic!("not a hex digit"),
    }
}

/// The inverse of a table that holds each byte once; any other stops the build.
const fn invert(table: [u8; 256]) -> [u8; 256] {
    let mut inverse = [0; 256];
    let mut seen = [false; 256];
    let mut entry = 0;
    while entry < 256 {
        let to = table[entry] as usize;
        assert!(!seen[to]);
        seen[to] = true;
        inverse[to] = entry as u8;
        entry += 1;
    }
    inverse
}
