//! Reading of the vector files.

/// The lines of a file that are neither remarks nor empty, each as words.
pub fn lines(text: &str) -> Vec<Vec<&str>> {
    let lines = text.lines().filter(|line| !line.starts_with('#'));
    let words = lines.map(|line| line.split_whitespace().collect::<Vec<_>>());
    words.filter(|words| !words.is_empty()).collect()
}

/// The bytes of hexadecimal digits; a dash stands for none.
pub fn bytes(hex: &str) -> Vec<u8> {
    let digits = if hex == "-" { "" } else { hex };
    let byte = |at| u8::from_str_radix(&digits[at..at + 2], 16).unwrap();
    (0..digits.len()).step_by(2).map(byte).collect()
}

/// As many bytes as the array has.
pub fn array<const N: usize>(hex: &str) -> [u8; N] {
    bytes(hex).try_into().unwrap()
}

/// The word behind the first line that begins with this name.
pub fn field<'a>(lines: &[Vec<&'a str>], name: &str) -> &'a str {
    let line = lines.iter().find(|words| words[0] == name);
    line.unwrap()[1]
}
