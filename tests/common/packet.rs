//! gdb's packets: `$`, what is said, `#` and the sum of it in two digits.

/// The sum of bytes modulo 256.
pub fn sum(bytes: &[u8]) -> u8 {
    bytes.iter().fold(0, |sum, byte| sum.wrapping_add(*byte))
}

/// A packet of bytes that are escaped already, where they have to be.
pub fn framed(said: &[u8]) -> Vec<u8> {
    let mut packet = vec![b'$'];
    packet.extend(said);
    packet.extend(format!("#{:02x}", sum(said)).bytes());
    packet
}

/// The sum that two digits say; of either case, as gdb takes them.
pub fn sum_of(digits: &[u8]) -> Option<u8> {
    let digit = |at: usize| char::from(*digits.get(at)?).to_digit(16);
    Some((digit(0)? << 4 | digit(1)?) as u8)
}

/// What a stub said: acknowledgements and packets, in their order.
#[derive(Clone, PartialEq, Eq, Debug)]
pub enum Heard {
    Plus,
    Minus,
    Packet(Vec<u8>),
}

/// The packets of whole output; None where it is no whole number of them, a sum is
/// wrong, or a byte stands between two of them.
pub fn heard(mut bytes: &[u8]) -> Option<Vec<Heard>> {
    let mut all = Vec::new();
    while let Some((&first, rest)) = bytes.split_first() {
        bytes = rest;
        match first {
            b'+' => all.push(Heard::Plus),
            b'-' => all.push(Heard::Minus),
            b'$' => {
                let end = bytes.iter().position(|&byte| byte == b'#')?;
                let said = &bytes[..end];
                let digits = bytes.get(end + 1..end + 3)?;
                if sum_of(digits)? != sum(said) || said.contains(&b'$') {
                    return None;
                }
                all.push(Heard::Packet(said.to_vec()));
                bytes = &bytes[end + 3..];
            }
            _ => return None,
        }
    }
    Some(all)
}

/// The bytes of hexadecimal digits; None where they are none.
pub fn from_hex(text: &str) -> Option<Vec<u8>> {
    if text.len() % 2 != 0 || !text.is_ascii() {
        return None;
    }
    (0..text.len()).step_by(2).map(|at| u8::from_str_radix(&text[at..at + 2], 16).ok()).collect()
}
