//! Octets in hex, for the examples.

/// The words of the command line. One that is no text becomes a word that is no hex.
pub fn words() -> Vec<String> {
    std::env::args_os().skip(1).map(|word| word.to_string_lossy().into_owned()).collect()
}

/// The octets that the words stand for, two digits for each.
pub fn octets_of(words: &[String]) -> Option<Vec<u8>> {
    let digits: Vec<u32> = words
        .iter()
        .flat_map(|word| word.chars())
        .filter(|c| !c.is_whitespace())
        .map(|c| c.to_digit(16))
        .collect::<Option<_>>()?;
    if !digits.len().is_multiple_of(2) {
        return None;
    }
    Some(digits.chunks_exact(2).map(|pair| (pair[0] * 16 + pair[1]) as u8).collect())
}

/// The octets, two digits for each.
pub fn text_of(octets: &[u8]) -> String {
    octets.iter().map(|octet| format!("{octet:02X}")).collect()
}
