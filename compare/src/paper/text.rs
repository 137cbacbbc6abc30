//! Lines, decimal numbers and f32 bits, as sheets and run texts have them.

/// A text cut into lines. "Lines end in one LF": a last part without it is kept apart.
pub struct Text<'a> {
    ended: Vec<&'a [u8]>,
    unended: bool,
}

impl<'a> Text<'a> {
    pub fn new(bytes: &'a [u8]) -> Text<'a> {
        let mut parts: Vec<&[u8]> = bytes.split(|&byte| byte == b'\n').collect();
        let rest = parts.pop();
        Text { ended: parts, unended: rest.is_some_and(|rest| !rest.is_empty()) }
    }

    /// How many lines have begun.
    pub fn begun(&self) -> usize {
        self.ended.len() + usize::from(self.unended)
    }

    /// A line, counted from 1, unless it is missing or without LF.
    pub fn line(&self, number: usize) -> Option<&'a [u8]> {
        self.ended.get(number - 1).copied()
    }
}

/// "One space separates."
pub fn words(line: &[u8]) -> Vec<&[u8]> {
    line.split(|&byte| byte == b' ').collect()
}

/// "Decimal numbers have no leading zeros." A number too long for any limit comes out as
/// the largest usize.
pub fn decimal(word: &[u8]) -> Option<usize> {
    let of_form = match word {
        [] => false,
        [b'0'] => true,
        [b'0', ..] => false,
        _ => word.iter().all(u8::is_ascii_digit),
    };
    let append = |number: usize, digit: &u8| {
        number.saturating_mul(10).saturating_add(usize::from(digit - b'0'))
    };
    of_form.then(|| word.iter().fold(0, append))
}

/// The numbers of a line that has so many and nothing else.
pub fn decimals<const COUNT: usize>(line: &[u8]) -> Option<[usize; COUNT]> {
    let mut words = line.split(|&byte| byte == b' ');
    let mut numbers = [0; COUNT];
    for number in &mut numbers {
        *number = decimal(words.next()?)?;
    }
    words.next().is_none().then_some(numbers)
}

/// "Eight lowercase hexadecimal digits of f32 bits."
pub fn f32_of_digits(word: &[u8]) -> Option<f32> {
    if word.len() != 8 {
        return None;
    }
    let mut bits = 0;
    for &digit in word {
        let value = match digit {
            b'0'..=b'9' => digit - b'0',
            b'a'..=b'f' => digit - b'a' + 10,
            _ => return None,
        };
        bits = 16 * bits + u32::from(value);
    }
    Some(f32::from_bits(bits))
}
