//! What a byte may be, and where a byte first stands. Long runs are looked at in blocks without a
//! branch inside, which the compiler turns into vector instructions; short ones a word at a time.

pub const CR: u8 = 0x0D;
pub const LF: u8 = 0x0A;
pub const BLANK: u8 = 0x20;
pub const NULL: &[u8] = b"\"\"";

/// The five delimiters in the message's order, by their places.
pub type Delimiters = [u8; 5];
pub const FIELD: usize = 0;
pub const COMPONENT: usize = 1;
pub const REPETITION: usize = 2;
pub const ESCAPE: usize = 3;
pub const SUBCOMPONENT: usize = 4;

pub fn is_printable(byte: u8) -> bool {
    // Two ranges with one subtraction each: 0x20 to 0x7E, and 0xA0 to 0xFF.
    byte.wrapping_sub(0x20) <= 0x7E - 0x20 || byte >= 0xA0
}

/// The place of the first byte that may not stand in a message: by large blocks, then by small ones.
#[inline(always)]
pub fn first_not_allowed(bytes: &[u8]) -> Option<usize> {
    const LARGE: usize = 128;
    let is_wrong = |byte| !(is_printable(byte) | (byte == CR));
    let mut start = 0;
    for block in bytes.chunks_exact(LARGE) {
        if block.iter().fold(false, |found, &byte| found | is_wrong(byte)) {
            break;
        }
        start += LARGE;
    }
    first_block_with(&bytes[start..], is_wrong).map(|at| start + at)
}

/// The place of the first byte for which the test holds: in a block at once, then in the block.
#[inline(always)]
pub fn first_block_with(bytes: &[u8], test: impl Fn(u8) -> bool) -> Option<usize> {
    const BLOCK: usize = 32;
    let mut blocks = bytes.chunks_exact(BLOCK);
    let mut start = 0;
    for block in &mut blocks {
        if block.iter().fold(false, |found, &byte| found | test(byte)) {
            return block.iter().position(|&byte| test(byte)).map(|at| start + at);
        }
        start += BLOCK;
    }
    blocks.remainder().iter().position(|&byte| test(byte)).map(|at| start + at)
}

/// The place of the first `wanted`, eight bytes at a time: for parts that are short.
#[inline(always)]
pub fn find(bytes: &[u8], wanted: u8) -> Option<usize> {
    const ONES: u64 = u64::MAX / 0xFF;
    const HIGHS: u64 = ONES << 7;
    let pattern = ONES * u64::from(wanted);
    let mut words = bytes.chunks_exact(8);
    let mut start = 0;
    for word in &mut words {
        let differing = u64::from_le_bytes(word.try_into().unwrap_or_default()) ^ pattern;
        // The lowest high bit that is set stands in the first byte that does not differ.
        let same = differing.wrapping_sub(ONES) & !differing & HIGHS;
        if same != 0 {
            return Some(start + same.trailing_zeros() as usize / 8);
        }
        start += 8;
    }
    words.remainder().iter().position(|&byte| byte == wanted).map(|at| start + at)
}

/// The highest bit of each of eight bytes that is `wanted`, and no other bit.
#[inline(always)]
pub fn marks_of(word: &[u8], wanted: u8) -> u64 {
    const ONES: u64 = u64::MAX / 0xFF;
    const HIGHS: u64 = ONES << 7;
    let differing = u64::from_le_bytes(word.try_into().unwrap_or_default()) ^ (ONES * u64::from(wanted));
    !(((differing & !HIGHS) + !HIGHS) | differing) & HIGHS
}

/// The place of the first `wanted`, in a block at once, then eight bytes at a time: for parts that may
/// be long.
#[inline(always)]
pub fn find_far<const BLOCK: usize>(bytes: &[u8], wanted: u8) -> Option<usize> {
    let mut start = 0;
    for block in bytes.chunks_exact(BLOCK) {
        if block.iter().fold(false, |found, &byte| found | (byte == wanted)) {
            return find(block, wanted).map(|at| start + at);
        }
        start += BLOCK;
    }
    find(&bytes[start..], wanted).map(|at| start + at)
}

/// What stands before the first `separator`, and what stands behind it where there is one.
#[inline(always)]
pub fn split_once(bytes: &[u8], separator: u8) -> (&[u8], Option<&[u8]>) {
    match find(bytes, separator) {
        Some(at) => (&bytes[..at], Some(&bytes[at + 1..])),
        None => (bytes, None),
    }
}

/// What stands before the first `separator`.
#[inline(always)]
pub fn before(bytes: &[u8], separator: u8) -> &[u8] {
    split_once(bytes, separator).0
}

/// The four states of an element, of which one that is absent is told as empty.
#[derive(Clone, Copy, PartialEq)]
pub enum State {
    Empty,
    Null,
    Present,
}

#[inline(always)]
pub fn state_of(part: &[u8], delimiters: &Delimiters) -> State {
    if part == NULL {
        return State::Null;
    }
    let separators = [delimiters[COMPONENT], delimiters[REPETITION], delimiters[SUBCOMPONENT]];
    if part.iter().all(|byte| separators.contains(byte)) {
        return State::Empty;
    }
    State::Present
}

/// The place of the first delimiter that may not be one or stands twice.
pub fn wrong_delimiter(delimiters: &Delimiters) -> Option<usize> {
    (0..5).find(|&place| {
        let byte = delimiters[place];
        let kept = matches!(byte, b'"' | b'+' | b'-' | b'.');
        !byte.is_ascii_punctuation() || kept || delimiters[..place].contains(&byte)
    })
}
