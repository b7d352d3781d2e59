//! Bytes as hexadecimal text.

pub fn write(bytes: &[u8]) -> String {
    bytes.iter().map(|byte| format!("{byte:02x}")).collect()
}

pub fn read(text: &str) -> Option<Vec<u8>> {
    let digits: Vec<char> = text.chars().collect();
    let mut pairs = digits.chunks_exact(2);
    let bytes = pairs.by_ref().map(|pair| {
        let (high, low) = (pair[0].to_digit(16)?, pair[1].to_digit(16)?);
        u8::try_from(high << 4 | low).ok()
    });
    let bytes: Option<Vec<u8>> = bytes.collect();
    bytes.filter(|_| pairs.remainder().is_empty())
}

#[cfg(test)]
mod tests {
    #[test]
    fn bytes_come_back_and_bad_text_does_not() {
        let all: Vec<u8> = (0..=255).collect();
        assert_eq!(super::read(&super::write(&all)), Some(all));
        assert_eq!(super::write(&[0x0f, 0xa0]), "0fa0");
        assert_eq!(super::read("0"), None);
        assert_eq!(super::read("0g"), None);
    }
}
