//! How the build script names the library: its digest, on examples of NIST, and the kit of its
//! record; and the names of the library that these tests are linked with.

#[path = "../record.rs"]
mod record;
#[path = "../sha256.rs"]
mod sha256;

use std::process::Command;

use ruzkemp::origin;
use sha256::sha256;

/// NIST's examples: FIPS 180-2, appendix B, and the empty message of its test vectors.
#[test]
fn nist_s_examples_have_their_digests() {
    let two_blocks = b"abcdbcdecdefdefgefghfghighijhijkijkljklmklmnlmnomnopnopq";
    let examples: [(&[u8], &str); 3] = [
        (
            b"abc",
            "ba7816bf8f01cfea414140de5dae2223b00361a396177a9cb410ff61f20015ad",
        ),
        (
            two_blocks,
            "248d6a61d20638b8e5c026930c3e6039a33ce45964ff2167f6ecedd419db06c1",
        ),
        (
            b"",
            "e3b0c44298fc1c149afbf4c8996fb92427ae41e4649b934ca495991b7852b855",
        ),
    ];
    for (message, digest) in examples {
        assert_eq!(sha256(message), digest, "{message:?}");
    }
    assert_eq!(
        sha256(&[b'a'; 1_000_000]),
        "cdc76e5c9914fb9281a1c7e284d73e67f1809a48a497200e046d39ccc7112cd0"
    );
}

/// `sha256sum` of the coreutils is the independent source.
fn summed(path: &str) -> String {
    let output = Command::new("sha256sum").arg(path).output();
    let output = output.expect("sha256sum runs").stdout;
    let line = String::from_utf8(output).expect("text");
    line.split(' ').next().expect("a digest").into()
}

/// Every length around the end of a block, where the padding changes.
#[test]
fn every_length_has_the_digest_of_sha256sum() {
    let path = concat!(env!("CARGO_TARGET_TMPDIR"), "/sha256");
    for length in (0..=2).chain(54..=66).chain(118..=130) {
        let bytes: Vec<u8> = (0..length).map(|at| at as u8 ^ 0xA5).collect();
        std::fs::write(path, &bytes).expect("a temporary file");
        assert_eq!(sha256(&bytes), summed(path), "{length} bytes");
    }
}

#[test]
fn a_record_names_the_kit_of_its_own_library_only() {
    assert_eq!(record::kit("ab12 kit-5 logic 7\n", "ab12"), "kit-5 logic 7");
    for record in [
        "",
        "\n",
        "ab12",
        "ab12 \n",
        "ab13 kit-5\n",
        "kit-5\n",
        "x\nab12 kit-5\n",
    ] {
        assert_eq!(record::kit(record, "ab12"), "unknown", "{record:?}");
    }
}

#[test]
fn the_library_is_named_by_its_own_digest() {
    let library = concat!(env!("OUT_DIR"), "/libexport.a");
    assert_eq!(origin::SHA256, summed(library));
    assert!(!origin::KIT.is_empty());
}
