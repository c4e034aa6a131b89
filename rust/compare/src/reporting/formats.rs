//! Inputs and answers as text.

/// Mismatches shown in full.
pub const SHOWN: u64 = 10;

pub fn hex(bytes: &[u8]) -> String {
    bytes.iter().map(|byte| format!("{byte:02X}")).collect()
}

/// The values up to the last that is not 0.
pub fn shown(values: &[u64]) -> String {
    let last = values.iter().rposition(|&value| value != 0);
    let used = last.map_or(0, |last| last + 1);
    let values: Vec<String> = values[..used].iter().map(|v| format!("{v:X}")).collect();
    format!("[{}]", values.join(" "))
}
