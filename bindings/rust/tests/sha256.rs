//! SHA-256 by NIST's published examples for FIPS 180-4.

use gronwythal::sha256;

fn hex(digest: [u8; 32]) -> String {
    digest.iter().map(|byte| format!("{byte:02x}")).collect()
}

#[test]
fn no_bytes() {
    let empty = "e3b0c44298fc1c149afbf4c8996fb92427ae41e4649b934ca495991b7852b855";
    assert_eq!(hex(sha256(&[])), empty);
    assert_eq!(hex(sha256(&b"abc"[3..])), empty);
}

#[test]
fn the_standard_messages() {
    let messages = [
        (
            "abc",
            "ba7816bf8f01cfea414140de5dae2223b00361a396177a9cb410ff61f20015ad",
        ),
        (
            "abcdbcdecdefdefgefghfghighijhijkijkljklmklmnlmnomnopnopq",
            "248d6a61d20638b8e5c026930c3e6039a33ce45964ff2167f6ecedd419db06c1",
        ),
        (
            "abcdefghbcdefghicdefghijdefghijkefghijklfghijklmghijklmnhijklmnoijklmnopjklmnopqklmnopqrlmnopqrsmnopqrstnopqrstu",
            "cf5b16a778af8380036ce59e7b0492370b249b11e8f07a51afac45037afee9d1",
        ),
    ];
    for (message, digest) in messages {
        assert_eq!(hex(sha256(message.as_bytes())), digest, "{message}");
    }
}

/// The length takes 8 bytes at the end of the last block, and a bit stands before it: from 56 bytes on, there is one block more.
#[test]
fn the_end_of_a_block() {
    let zeros = [
        (55, "02779466cdec163811d078815c633f21901413081449002f24aa3e80f0b88ef7"),
        (56, "d4817aa5497628e7c77e6b606107042bbba3130888c5f47a375e6179be789fbb"),
        (57, "65a16cb7861335d5ace3c60718b5052e44660726da4cd13bb745381b235a1785"),
        (64, "f5a5fd42d16a20302798ef6ed309979b43003d2320d9f0e8ea9831a92759fb4b"),
    ];
    for (count, digest) in zeros {
        assert_eq!(hex(sha256(&vec![0; count])), digest, "{count} zeros");
    }
}

#[test]
fn long_messages() {
    let messages = [
        (
            b'A',
            1000,
            "c2e686823489ced2017f6059b8b239318b6364f6dcd835d0a519105a1eadd6e4",
        ),
        (
            b'U',
            1005,
            "f4d62ddec0f3dd90ea1380fa16a5ff8dc4c54b21740650f24afc4120903552b0",
        ),
        (
            b'a',
            1_000_000,
            "cdc76e5c9914fb9281a1c7e284d73e67f1809a48a497200e046d39ccc7112cd0",
        ),
    ];
    for (byte, count, digest) in messages {
        assert_eq!(hex(sha256(&vec![byte; count])), digest, "{count} bytes");
    }
}
