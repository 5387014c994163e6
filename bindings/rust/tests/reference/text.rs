//! Lines, words and numbers of a text.

/// The lines that are not blank, each as its words.
pub fn word_lines(text: &[u8]) -> Vec<Vec<&[u8]>> {
    text.split(|&byte| byte == b'\n').map(without_cr).map(words).filter(|words| !words.is_empty()).collect()
}

/// A line that ended in CR LF, without the CR.
fn without_cr(line: &[u8]) -> &[u8] {
    line.strip_suffix(b"\r").unwrap_or(line)
}

/// The words of a line: what stands between its spaces.
fn words(line: &[u8]) -> Vec<&[u8]> {
    line.split(|&byte| byte == b' ').filter(|word| !word.is_empty()).collect()
}

/// A number: one to six digits without a leading zero, or 0 itself.
pub fn number(word: &[u8]) -> Option<usize> {
    let digits = (1..=6).contains(&word.len()) && word.iter().all(u8::is_ascii_digit);
    if !digits || (word.len() > 1 && word[0] == b'0') {
        return None;
    }
    Some(word.iter().fold(0, |value, digit| 10 * value + usize::from(digit - b'0')))
}
