//! The instructions of an ELF image's .text section, one after the other from its start.

/// The words of .text, each of 2 or 4 bytes by its low two bits.
pub fn words(elf: &[u8]) -> Option<Vec<u64>> {
    let text = section(elf, b".text")?;
    let mut words = Vec::new();
    let mut at = 0;
    while at + 2 <= text.len() {
        let half = u16::from_le_bytes([text[at], text[at + 1]]) as u64;
        let len = if half & 3 == 3 { 4 } else { 2 };
        let word = match (len, text.get(at..at + 4)) {
            (2, _) => half,
            (_, Some(four)) => u32::from_le_bytes(four.try_into().ok()?) as u64,
            _ => break,
        };
        words.push(word);
        at += len;
    }
    Some(words)
}

/// The bytes of a section of a little-endian 64-bit ELF file.
fn section<'a>(elf: &'a [u8], name: &[u8]) -> Option<&'a [u8]> {
    let number =
        |at: usize, len: usize| -> Option<usize> { Some(elf.get(at..at + len)?.iter().rev().fold(0, |n, b| n << 8 | *b as usize)) };
    if elf.get(..6)? != b"\x7FELF\x02\x01" {
        return None;
    }
    let (table, size, count, names) = (number(0x28, 8)?, number(0x3A, 2)?, number(0x3C, 2)?, number(0x3E, 2)?);
    let header = |k: usize| Some((number(table + k * size, 4)?, number(table + k * size + 0x18, 8)?, number(table + k * size + 0x20, 8)?));
    let (_, names, _) = header(names)?;
    for k in 0..count {
        let (at, offset, len) = header(k)?;
        let text = elf.get(names + at..)?;
        if text.starts_with(name) && text.get(name.len()) == Some(&0) {
            return elf.get(offset..offset + len);
        }
    }
    None
}
