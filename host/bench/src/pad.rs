//! Moves the library's code by as many bytes as `BENCH_PAD` said when this was built: how fast a
//! loop is depends on where it stands, and the linker puts functions at any multiple of 16.

/// The number of bytes.
const PAD: usize = match option_env!("BENCH_PAD") {
    Some(digits) => number(digits.as_bytes()),
    None => 0,
};

const fn number(digits: &[u8]) -> usize {
    let (mut value, mut at) = (0, 0);
    while at < digits.len() {
        assert!(digits[at].is_ascii_digit(), "BENCH_PAD is no number");
        value = 10 * value + (digits[at] - b'0') as usize;
        at += 1;
    }
    value
}

// Kept though nothing calls it (R); the code of this package stands before that of the library.
core::arch::global_asm!(
    ".section .text.pad,\"axR\",@progbits",
    ".skip {pad}, 0xCC",
    ".text",
    pad = const PAD,
);
