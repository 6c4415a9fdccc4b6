//! The record of a library, for the build script: one line, its SHA-256 and the kit that proved it.

/// The kit that a record names, if it is the record of the library with that digest.
pub fn kit(record: &str, digest: &str) -> String {
    let line = record.lines().next().unwrap_or_default();
    match line.split_once(' ') {
        Some((named, kit)) if named == digest && !kit.trim().is_empty() => kit.trim().into(),
        _ => "unknown".into(),
    }
}
