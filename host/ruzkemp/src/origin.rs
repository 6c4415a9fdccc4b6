//! Which library this crate is linked with: its digest, and the kit that proved it.

/// The SHA-256 of the static library, as `sha256sum` prints it.
pub const SHA256: &str = env!("RUZKEMP_SHA256");

/// The line by which the kit that proved the library names itself (`rt version`), or `unknown`.
pub const KIT: &str = env!("RUZKEMP_KIT");
