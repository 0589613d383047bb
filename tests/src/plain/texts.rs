//! What both bracket texts share: lines and numbers.

/// The lines of a text without their ends, and what stands after the last end.
pub fn lines(text: &[u8]) -> (Vec<&[u8]>, &[u8]) {
    let mut lines: Vec<&[u8]> = text.split(|byte| *byte == b'\n').collect();
    let rest = lines.pop().expect("a split gives one piece or more");
    (lines, rest)
}

/// What follows so many spaces.
pub fn indented(line: &[u8], spaces: usize) -> Option<&[u8]> {
    line.strip_prefix(" ".repeat(spaces).as_bytes())
}

/// The number of a form, and how many brackets stand after the form's own: `(word n)` and then only brackets.
pub fn numbered(line: &[u8], word: &str) -> Option<(u64, usize)> {
    let rest = line.strip_prefix(format!("({word} ").as_bytes())?;
    let digits = rest.iter().take_while(|byte| byte.is_ascii_digit()).count();
    let brackets = &rest[digits..];
    let closed = !brackets.is_empty() && brackets.iter().all(|byte| *byte == b')');
    let number = number(&rest[..digits])?;
    closed.then(|| (number, brackets.len() - 1))
}

/// A number of 1 to 10 digits, with no leading zero but 0 itself.
fn number(digits: &[u8]) -> Option<u64> {
    let leading_zero = digits.len() > 1 && digits[0] == b'0';
    if digits.is_empty() || digits.len() > 10 || leading_zero {
        return None;
    }
    Some(digits.iter().fold(0, |number, digit| 10 * number + u64::from(digit - b'0')))
}
