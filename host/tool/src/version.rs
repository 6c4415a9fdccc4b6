//! What `ruzkemp --version` prints.

use ruzkemp::origin;

/// The tool's version.
pub const VERSION: &str = env!("CARGO_PKG_VERSION");

/// A line each for the tool, the library in it, its digest, and the kit that proved it; the
/// first word says which.
pub fn lines() -> String {
    format!(
        "ruzkemp {VERSION}\nlibrary libruzkemp.a\nsha256 {}\nkit {}\n",
        origin::SHA256,
        origin::KIT
    )
}
