//! SHA-256: held to the examples of FIPS 180-4, and to `sha256sum` on messages of every length about a block's end.

use shuntberry::FILE_BYTES;
use shuntberry_command::sha256::sha256;
use std::io::Write;
use std::process::{Command, Stdio};

/// The sums that NIST gives with the standard.
#[test]
fn examples_of_the_standard() {
    let two_blocks = b"abcdbcdecdefdefgefghfghighijhijkijkljklmklmnlmnomnopnopq";
    let million = vec![b'a'; 1_000_000];
    for (message, sum) in [
        (
            &b"abc"[..],
            "ba7816bf8f01cfea414140de5dae2223b00361a396177a9cb410ff61f20015ad",
        ),
        (
            b"",
            "e3b0c44298fc1c149afbf4c8996fb92427ae41e4649b934ca495991b7852b855",
        ),
        (
            two_blocks,
            "248d6a61d20638b8e5c026930c3e6039a33ce45964ff2167f6ecedd419db06c1",
        ),
        (
            &million,
            "cdc76e5c9914fb9281a1c7e284d73e67f1809a48a497200e046d39ccc7112cd0",
        ),
    ] {
        assert_eq!(sha256(message), sum);
    }
}

fn by_sha256sum(message: &[u8]) -> String {
    let mut program = Command::new("sha256sum")
        .stdin(Stdio::piped())
        .stdout(Stdio::piped())
        .spawn()
        .expect("sha256sum is one of the core utilities");
    program.stdin.take().unwrap().write_all(message).unwrap();
    let said = program.wait_with_output().unwrap().stdout;
    String::from_utf8(said).unwrap()[..64].to_string()
}

/// Lengths on both sides of each place where the padding takes a block more, and that of the largest file.
#[test]
fn as_sha256sum() {
    let lengths = (0..=200).chain([511, 512, 513, 1024, FILE_BYTES, FILE_BYTES + 1, 1 << 20]);
    for length in lengths {
        let mut bits: u32 = length as u32;
        let message: Vec<u8> = (0..length)
            .map(|_| {
                bits = bits.wrapping_mul(1_664_525).wrapping_add(1_013_904_223);
                (bits >> 24) as u8
            })
            .collect();
        assert_eq!(
            sha256(&message),
            by_sha256sum(&message),
            "of {length} bytes"
        );
    }
}
