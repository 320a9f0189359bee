//! Numbers in decimal digits.

/// The two digits of each number below 100.
const PAIRS: [[u8; 2]; 100] = {
    let mut pairs = [[0; 2]; 100];
    let mut value = 0;
    while value < 100 {
        pairs[value] = [b'0' + (value / 10) as u8, b'0' + (value % 10) as u8];
        value += 1;
    }
    pairs
};

/// The most digits of a number.
const MOST: usize = 20;

/// Appends a number.
pub fn push(out: &mut Vec<u8>, mut value: u64) {
    let mut digits = [0; MOST];
    let mut at = MOST;
    while value >= 10 {
        at -= 2;
        digits[at..at + 2].copy_from_slice(&PAIRS[(value % 100) as usize]);
        value /= 100;
    }
    if value > 0 || at == MOST {
        at -= 1;
        digits[at] = b'0' + value as u8;
    }
    out.extend_from_slice(&digits[at..]);
}

/// The digits with which bytes begin: how many there are, and their value if it is below 2^64.
pub struct Digits {
    pub count: usize,
    pub value: Option<u64>,
}

/// Reads them. None if there is no digit, or a zero before others.
pub fn read(bytes: &[u8]) -> Option<Digits> {
    let mut value = 0u64;
    let mut count = 0;
    for byte in bytes.iter().take(MOST - 1) {
        let digit = byte.wrapping_sub(b'0');
        if digit > 9 {
            break;
        }
        value = 10 * value + u64::from(digit);
        count += 1;
    }
    if count == 0 || (count > 1 && bytes[0] == b'0') {
        return None;
    }
    // Nineteen digits fit; further ones may not.
    let mut value = Some(value);
    while let Some(byte) = bytes.get(count).filter(|it| count >= MOST - 1 && it.is_ascii_digit()) {
        value = value.and_then(|it| it.checked_mul(10)?.checked_add(u64::from(byte - b'0')));
        count += 1;
    }
    Some(Digits { count, value })
}
