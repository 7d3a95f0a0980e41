//! `sha256 BYTES`: the digest of any bytes.

use std::path::PathBuf;
use std::{fs, io, process};

use super::all_of;
use crate::calls::{Call, Line};
use crate::compare::{Case, Cases, Group};
use crate::folder;
use crate::random::Random;

/// The groups of this call.
pub fn groups() -> Vec<Group> {
    vec![
        Group {
            name: "sha256, published",
            calls: &["sha256"],
            cases: |_| published(),
            least: 15,
            shares: &[],
            complete: &[],
            renewed: false,
        },
        Group {
            name: "sha256, lengths",
            calls: &["sha256"],
            cases: lengths,
            least: 1_700,
            shares: &[],
            complete: &[],
            renewed: true,
        },
    ]
}

/// The examples that NIST publishes with FIPS 180-4, and its further ones for SHA-256.
const PUBLISHED: &[(&[u8], &str)] = &[
    (
        b"",
        "e3b0c44298fc1c149afbf4c8996fb92427ae41e4649b934ca495991b7852b855",
    ),
    (
        b"abc",
        "ba7816bf8f01cfea414140de5dae2223b00361a396177a9cb410ff61f20015ad",
    ),
    (
        b"abcdbcdecdefdefgefghfghighijhijkijkljklmklmnlmnomnopnopq",
        "248d6a61d20638b8e5c026930c3e6039a33ce45964ff2167f6ecedd419db06c1",
    ),
    (
        b"abcdefghbcdefghicdefghijdefghijkefghijklfghijklmghijklmnhijklmnoijklmnopjklmnopqklmnopqrlmnopqrsmnopqrstnopqrstu",
        "cf5b16a778af8380036ce59e7b0492370b249b11e8f07a51afac45037afee9d1",
    ),
    (
        &[0xbd],
        "68325720aabd7c82f30f554b313d0570c95accbb7dc4b5aae11204c08ffe732b",
    ),
    (
        &[0xc9, 0x8c, 0x8e, 0x55],
        "7abc22c0ae5af26ce93dbb94433a0e0b2e119d014f8e7f65bd56c61ccccd9504",
    ),
    (
        &[0; 55],
        "02779466cdec163811d078815c633f21901413081449002f24aa3e80f0b88ef7",
    ),
    (
        &[0; 56],
        "d4817aa5497628e7c77e6b606107042bbba3130888c5f47a375e6179be789fbb",
    ),
    (
        &[0; 57],
        "65a16cb7861335d5ace3c60718b5052e44660726da4cd13bb745381b235a1785",
    ),
    (
        &[0; 64],
        "f5a5fd42d16a20302798ef6ed309979b43003d2320d9f0e8ea9831a92759fb4b",
    ),
    (
        &[0; 1_000],
        "541b3e9daa09b20bf85fa273e5cbd3e80185aa4ec298e765db87742b70138a53",
    ),
    (
        &[0x41; 1_000],
        "c2e686823489ced2017f6059b8b239318b6364f6dcd835d0a519105a1eadd6e4",
    ),
    (
        &[0x55; 1_005],
        "f4d62ddec0f3dd90ea1380fa16a5ff8dc4c54b21740650f24afc4120903552b0",
    ),
];

/// Of a million times the letter a, and of a million zeros.
const MILLIONS: &[(&str, u8, &str)] = &[
    (
        "million-letters",
        b'a',
        "cdc76e5c9914fb9281a1c7e284d73e67f1809a48a497200e046d39ccc7112cd0",
    ),
    (
        "million-zeros",
        0,
        "d29751f2649b32ff572b5e0a9f541ea660a50f94ff0beedfb0b692b924cc8025",
    ),
];

fn published() -> Cases {
    let short = PUBLISHED.iter().map(|(message, digest)| {
        let call = Call::Sha256(message.to_vec());
        Case::stated(call, format!("sha256 {digest}"))
    });
    let long = MILLIONS.iter().map(|(name, byte, digest)| {
        let line = format!("sha256 @{}", million(name, *byte));
        Case::stated(Line::Raw(line.into_bytes()), format!("sha256 {digest}"))
    });
    all_of(short.chain(long).collect())
}

/// The name of a file with a million times the byte: it would be too much for a line. As every file of a script it is named
/// from the folder of the published examples on.
fn million(name: &str, byte: u8) -> String {
    let built: PathBuf = ["..", "target", "side"].iter().collect();
    let path = built.join(name);
    let write = || {
        fs::create_dir_all(folder().join(&built))?;
        // Another run may be reading the file: it is there whole or not at all.
        let unfinished = folder().join(&built).join(format!("{name}-{}", process::id()));
        fs::write(&unfinished, vec![byte; 1_000_000])?;
        fs::rename(unfinished, folder().join(&path))
    };
    let written: io::Result<()> = write();
    written.unwrap_or_else(|error| panic!("{}: {error}", path.display()));
    path.display().to_string()
}

/// All lengths to 130, of zeros, of ones and of any bytes; many longer ones, about the ends of blocks and of files; every bit
/// of two blocks.
fn lengths(seed: u64) -> Cases {
    let mut random = Random::new(seed, "sha256, lengths");
    let mut messages: Vec<Vec<u8>> = Vec::new();
    for length in 0..=130 {
        messages.extend([vec![0; length], vec![0xff; length], bytes(length, &mut random)]);
    }
    for length in longer_lengths(&mut random) {
        messages.push(bytes(length, &mut random));
    }
    for bit in 0..2 * 512 {
        let mut message = vec![0; 128];
        message[bit / 8] = 0x80 >> (bit % 8);
        messages.push(message);
    }
    let cases = messages.into_iter().map(|message| Case::open(Call::Sha256(message)));
    all_of(cases.collect())
}

fn longer_lengths(random: &mut Random) -> Vec<usize> {
    let mut lengths = vec![1_000, 4_095, 65_537, 100_000, 131_072];
    // Where the padding just fits, where it takes a block of its own, and where a block is full.
    let mut about_block = |blocks: usize| lengths.extend([55, 56, 63, 64, 65].map(|rest| 64 * blocks + rest));
    (2..40).for_each(&mut about_block);
    (0..20).for_each(|_| about_block(random.between(40, 1_000)));
    [32_768, 65_536]
        .map(|length| length / 64 - 1)
        .into_iter()
        .for_each(about_block);
    lengths
}

fn bytes(length: usize, random: &mut Random) -> Vec<u8> {
    (0..length).map(|_| random.byte()).collect()
}

#[cfg(test)]
mod tests {
    use super::{bytes, longer_lengths};
    use crate::random::Random;
    use crate::shelf::sha256::digest;

    #[test]
    fn lengths_that_have_to_be_there() {
        let lengths = longer_lengths(&mut Random::new(1, "lengths"));
        assert!(lengths.len() >= 300, "{}", lengths.len());
        for length in [183, 184, 191, 192, 32_767, 32_768, 32_769, 65_535, 65_536, 65_537] {
            assert!(lengths.contains(&length), "{length}");
        }
    }

    /// What makes the files works out digests in a way of its own.
    #[test]
    fn the_shelf_and_paper_agree() {
        let mut random = Random::new(1, "digests");
        for length in (0..=300).chain(longer_lengths(&mut random)) {
            let message = bytes(length, &mut random);
            assert_eq!(digest(&message), paper::sha256::digest(&message), "{length} bytes");
        }
    }
}
