//! What the measures were taken on, in words.

use std::thread::available_parallelism;

/// The processors' kind, how many of them, and their name where the system tells it.
pub fn machine() -> String {
    let count = available_parallelism().map_or(1, usize::from);
    let told = std::fs::read_to_string("/proc/cpuinfo").unwrap_or_default();
    let name = told
        .lines()
        .find_map(|line| line.strip_prefix("model name"));
    let name = name.map_or("of no known name", |name| {
        name.trim_start_matches([' ', '\t', ':'])
    });
    format!("{count} processors, {}, {name}", std::env::consts::ARCH)
}
