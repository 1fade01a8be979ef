//! Words of 32 bits, high byte first, and tables as hexadecimal text.
//!
//! The text form: words of eight digits or bytes of two, separated by white
//! space; `#` starts a comment that ends with its line.

/// The words of a table whose length is a multiple of four bytes.
pub fn words_of(bytes: &[u8]) -> Vec<u32> {
    bytes.chunks_exact(4).map(|four| u32::from_be_bytes([four[0], four[1], four[2], four[3]])).collect()
}

pub fn bytes_of(words: &[u32]) -> Vec<u8> {
    words.iter().flat_map(|word| word.to_be_bytes()).collect()
}

/// Two numbers of 16 bits in one word, the first one high.
pub fn pair(high: u16, low: u16) -> u32 {
    u32::from(high) << 16 | u32::from(low)
}

/// The upper and the lower 16 bits of a word.
pub fn halves(word: u32) -> (u16, u16) {
    ((word >> 16) as u16, word as u16)
}

/// Eight words a line; the bytes after the last whole word stand singly.
pub fn to_text(bytes: &[u8]) -> String {
    let whole = bytes.len() / 4 * 4;
    let words = words_of(bytes);
    let mut lines: Vec<String> =
        words.chunks(8).map(|line| join(line.iter().map(|word| format!("{word:08X}")))).collect();
    if whole < bytes.len() {
        lines.push(join(bytes[whole..].iter().map(|byte| format!("{byte:02X}"))));
    }
    lines.iter().map(|line| format!("{line}\n")).collect()
}

fn join(parts: impl Iterator<Item = String>) -> String {
    parts.collect::<Vec<_>>().join(" ")
}

pub fn from_text(text: &str) -> Result<Vec<u8>, String> {
    let mut bytes = Vec::new();
    for (number, line) in text.lines().enumerate() {
        let code = line.split('#').next().unwrap_or("");
        for token in code.split_whitespace() {
            let part = token_bytes(token).map_err(|why| format!("line {}: {why}", number + 1))?;
            bytes.extend(part);
        }
    }
    Ok(bytes)
}

fn token_bytes(token: &str) -> Result<Vec<u8>, String> {
    let digits = token.bytes().all(|digit| digit.is_ascii_hexdigit());
    match (digits, token.len()) {
        (true, 8) => u32::from_str_radix(token, 16).map(|word| word.to_be_bytes().to_vec()),
        (true, 2) => u8::from_str_radix(token, 16).map(|byte| vec![byte]),
        _ => return Err(format!("'{token}' is neither 8 nor 2 hexadecimal digits")),
    }
    .map_err(|why| why.to_string())
}
