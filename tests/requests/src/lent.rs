//! Lent bytes, and how they are told.

use register::WORKSPACE_BYTES;

/// Bytes to lend: 1, 2, 3 .. modulo 251.
pub fn lent(length: usize) -> Vec<u8> {
    (0..length).map(|i| (i % 251 + 1) as u8).collect()
}

/// Numbers to lend: each of them four bytes to lend, big-endian.
pub fn lent_numbers(length: usize) -> Vec<u32> {
    let bytes = lent(4 * length);
    let number = |four: &[u8]| four.iter().fold(0, |number, &byte| number << 8 | u32::from(byte));
    bytes.chunks_exact(4).map(number).collect()
}

/// `x` and the bytes as hexadecimal digits.
pub fn hex(bytes: &[u8]) -> String {
    let digits = bytes.iter().flat_map(|byte| [byte >> 4, byte & 15]);
    let digits = digits.filter_map(|digit| char::from_digit(digit.into(), 16));
    std::iter::once('x').chain(digits).collect()
}

/// What has become of a workspace.
pub fn state(workspace: &[u8]) -> &'static str {
    let before = lent(workspace.len());
    let cleared = |at: usize| workspace[..at].iter().all(|&byte| byte == 0);
    if workspace == before {
        "kept"
    } else if workspace.len() >= WORKSPACE_BYTES
        && cleared(WORKSPACE_BYTES)
        && workspace[WORKSPACE_BYTES..] == before[WORKSPACE_BYTES..]
    {
        "cleared"
    } else {
        "spoilt"
    }
}
