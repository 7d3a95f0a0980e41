//! SHA-256, as FIPS 180-4 writes it down. The numbers in the comments are those of its sections.
//!
//! Its constants are not copied but worked out from the primes that they come from.

use std::sync::LazyLock;

/// A block has 512 bits.
const BLOCK_BYTES: usize = 64;

/// How many words the message schedule has, and how many rounds there are.
const ROUNDS: usize = 64;

/// "the first thirty-two bits of the fractional parts of the cube roots of the first sixty-four prime numbers" (4.2.2)
static ROUND_CONSTANTS: LazyLock<[u32; ROUNDS]> = LazyLock::new(|| primes().map(|prime| fraction_of_root(prime, 3)));

/// "the first thirty-two bits of the fractional parts of the square roots of the first eight prime numbers" (5.3.3)
static INITIAL_HASH: LazyLock<[u32; 8]> = LazyLock::new(|| primes().map(|prime| fraction_of_root(prime, 2)));

/// The digest of a message of whole bytes.
pub fn digest(message: &[u8]) -> [u8; 32] {
    let mut hash = *INITIAL_HASH;
    for block in padded(message).chunks(BLOCK_BYTES) {
        hash = next_hash(hash, &schedule(block));
    }
    let bytes: Vec<u8> = hash.into_iter().flat_map(u32::to_be_bytes).collect();
    bytes.try_into().expect("eight words are 32 bytes")
}

/// "append the bit "1" to the end of the message, followed by k zero bits [..]. Then append the 64-bit block that is equal to
/// the number l expressed using a binary representation." (5.1.1)
fn padded(message: &[u8]) -> Vec<u8> {
    let bits = message.len() as u64 * 8;
    let mut padded = [message, &[0b1000_0000]].concat();
    while !(padded.len() + size_of_val(&bits)).is_multiple_of(BLOCK_BYTES) {
        padded.push(0);
    }
    padded.extend(bits.to_be_bytes());
    padded
}

/// "Prepare the message schedule" (6.2.2, step 1).
fn schedule(block: &[u8]) -> Vec<u32> {
    let word = |bytes: &[u8]| bytes.iter().fold(0, |word, byte| word << 8 | u32::from(*byte));
    let mut words: Vec<u32> = block.chunks(4).map(word).collect();
    for t in words.len()..ROUNDS {
        let new = [
            small_sigma_1(words[t - 2]),
            words[t - 7],
            small_sigma_0(words[t - 15]),
            words[t - 16],
        ];
        words.push(sum(&new));
    }
    words
}

/// The working variables after all rounds, added to what they began with (6.2.2, steps 2 to 4).
fn next_hash(hash: [u32; 8], schedule: &[u32]) -> [u32; 8] {
    let [mut a, mut b, mut c, mut d, mut e, mut f, mut g, mut h] = hash;
    for (word, constant) in schedule.iter().zip(*ROUND_CONSTANTS) {
        let t1 = sum(&[h, big_sigma_1(e), choice(e, f, g), constant, *word]);
        let t2 = sum(&[big_sigma_0(a), majority(a, b, c)]);
        (h, g, f, e) = (g, f, e, sum(&[d, t1]));
        (d, c, b, a) = (c, b, a, sum(&[t1, t2]));
    }
    let worked = [a, b, c, d, e, f, g, h];
    std::array::from_fn(|place| sum(&[hash[place], worked[place]]))
}

/// "Addition (+) is performed modulo 2^32." (6.2)
fn sum(words: &[u32]) -> u32 {
    let sum: u64 = words.iter().map(|word| u64::from(*word)).sum();
    (sum % (1 << 32)) as u32
}

// The six functions of 4.1.2.

fn choice(x: u32, y: u32, z: u32) -> u32 {
    (x & y) ^ (!x & z)
}

fn majority(x: u32, y: u32, z: u32) -> u32 {
    (x & y) ^ (x & z) ^ (y & z)
}

fn big_sigma_0(x: u32) -> u32 {
    x.rotate_right(2) ^ x.rotate_right(13) ^ x.rotate_right(22)
}

fn big_sigma_1(x: u32) -> u32 {
    x.rotate_right(6) ^ x.rotate_right(11) ^ x.rotate_right(25)
}

fn small_sigma_0(x: u32) -> u32 {
    x.rotate_right(7) ^ x.rotate_right(18) ^ x >> 3
}

fn small_sigma_1(x: u32) -> u32 {
    x.rotate_right(17) ^ x.rotate_right(19) ^ x >> 10
}

/// The first primes.
fn primes<const N: usize>() -> [u128; N] {
    let is_prime = |number: &u128| (2..*number).all(|divisor| !number.is_multiple_of(divisor));
    let mut primes = (2..).filter(is_prime);
    std::array::from_fn(|_| primes.next().expect("there is always a next prime"))
}

/// The first 32 bits behind the point of a root: the lowest 32 bits of the whole root of `2^(32 * degree)` times the number.
fn fraction_of_root(number: u128, degree: u32) -> u32 {
    let scaled = number << (32 * degree);
    // The highest number whose power is not above it, found bit by bit. The cube of 2^40 still fits.
    let root = (0..40).rev().fold(0u128, |root, bit| {
        let candidate = root | 1 << bit;
        if candidate.pow(degree) <= scaled {
            candidate
        } else {
            root
        }
    });
    (root % (1 << 32)) as u32
}

#[cfg(test)]
mod tests {
    use super::{INITIAL_HASH, ROUND_CONSTANTS, digest};
    use crate::hex;

    fn hex_digest(message: &[u8]) -> String {
        hex::written(&digest(message))
    }

    /// The first and last of both tables, as the standard prints them (4.2.2 and 5.3.3).
    #[test]
    fn constants_of_the_standard() {
        assert_eq!(INITIAL_HASH[..2], [0x6a09e667, 0xbb67ae85]);
        assert_eq!(INITIAL_HASH[7], 0x5be0cd19);
        assert_eq!(ROUND_CONSTANTS[..2], [0x428a2f98, 0x71374491]);
        assert_eq!(ROUND_CONSTANTS[62..], [0xbef9a3f7, 0xc67178f2]);
    }

    /// The examples that NIST publishes with the standard: one block, two blocks, none, a long message, and the 896 bits.
    #[test]
    fn examples_of_the_standard() {
        for (message, expected) in [
            (
                &b"abc"[..],
                "ba7816bf8f01cfea414140de5dae2223b00361a396177a9cb410ff61f20015ad",
            ),
            (
                b"abcdbcdecdefdefgefghfghighijhijkijkljklmklmnlmnomnopnopq",
                "248d6a61d20638b8e5c026930c3e6039a33ce45964ff2167f6ecedd419db06c1",
            ),
            (
                b"",
                "e3b0c44298fc1c149afbf4c8996fb92427ae41e4649b934ca495991b7852b855",
            ),
            (
                &[b'a'; 1_000_000],
                "cdc76e5c9914fb9281a1c7e284d73e67f1809a48a497200e046d39ccc7112cd0",
            ),
            (
                b"abcdefghbcdefghicdefghijdefghijkefghijklfghijklmghijklmnhijklmnoijklmnopjklmnopqklmnopqrlmnopqrsmnopqrstnopqrstu",
                "cf5b16a778af8380036ce59e7b0492370b249b11e8f07a51afac45037afee9d1",
            ),
        ] {
            assert_eq!(hex_digest(message), expected, "{} bytes", message.len());
        }
    }

    /// NIST's further examples for SHA-256, those that stand about the end of a block among them.
    #[test]
    fn further_examples_of_nist() {
        for (message, expected) in [
            (
                &[0xbd][..],
                "68325720aabd7c82f30f554b313d0570c95accbb7dc4b5aae11204c08ffe732b",
            ),
            (
                &[0xc9, 0x8c, 0x8e, 0x55],
                "7abc22c0ae5af26ce93dbb94433a0e0b2e119d014f8e7f65bd56c61ccccd9504",
            ),
            (
                &[0; 55],
                "02779466cdec163811d078815c633f21901413081449002f24aa3e80f0b88ef7",
            ),
            (
                &[0; 56],
                "d4817aa5497628e7c77e6b606107042bbba3130888c5f47a375e6179be789fbb",
            ),
            (
                &[0; 57],
                "65a16cb7861335d5ace3c60718b5052e44660726da4cd13bb745381b235a1785",
            ),
            (
                &[0; 64],
                "f5a5fd42d16a20302798ef6ed309979b43003d2320d9f0e8ea9831a92759fb4b",
            ),
            (
                &[0; 1_000],
                "541b3e9daa09b20bf85fa273e5cbd3e80185aa4ec298e765db87742b70138a53",
            ),
            (
                &[0x41; 1_000],
                "c2e686823489ced2017f6059b8b239318b6364f6dcd835d0a519105a1eadd6e4",
            ),
            (
                &[0x55; 1_005],
                "f4d62ddec0f3dd90ea1380fa16a5ff8dc4c54b21740650f24afc4120903552b0",
            ),
        ] {
            assert_eq!(hex_digest(message), expected, "{} bytes", message.len());
        }
    }

    /// Where the padding takes a block of its own and where it does not: so many times the letter a. The digests were worked
    /// out with `sha256sum` of the GNU coreutils.
    #[test]
    fn about_the_end_of_a_block() {
        for (length, expected) in [
            (54, "a3f01b6939256127582ac8ae9fb47a382a244680806a3f613a118851c1ca1d47"),
            (55, "9f4390f8d30c2dd92ec9f095b65e2b9ae9b0a925a5258e241c9f1e910f734318"),
            (56, "b35439a4ac6f0948b6d6f9e3c6af0f5f590ce20f1bde7090ef7970686ec6738a"),
            (57, "f13b2d724659eb3bf47f2dd6af1accc87b81f09f59f2b75e5c0bed6589dfe8c6"),
            (62, "f506898cc7c2e092f9eb9fadae7ba50383f5b46a2a4fe5597dbb553a78981268"),
            (63, "7d3e74a05d7db15bce4ad9ec0658ea98e3f06eeecf16b4c6fff2da457ddc2f34"),
            (64, "ffe054fe7ae0cb6dc65c3af9b61d5209f439851db43d0ba5997337df154668eb"),
            (65, "635361c48bb9eab14198e76ea8ab7f1a41685d6ad62aa9146d301d4f17eb0ae0"),
            (118, "879dc4f05b19ebc3b037f4683633df1332b054cf52fa372d323c421cb893a2aa"),
            (119, "31eba51c313a5c08226adf18d4a359cfdfd8d2e816b13f4af952f7ea6584dcfb"),
            (120, "2f3d335432c70b580af0e8e1b3674a7c020d683aa5f73aaaedfdc55af904c21c"),
            (121, "e9615320128cc7a3d6078e9af05603188e5ccbf0d07d8b735d3df5e8e0c1281f"),
            (126, "36bcf9292589fe6ea3e82fefe3aab1b8ca8b8347ea5a14b23e470ecb3ad7c57b"),
            (127, "c57e9278af78fa3cab38667bef4ce29d783787a2f731d4e12200270f0c32320a"),
            (128, "6836cf13bac400e9105071cd6af47084dfacad4e5e302c94bfed24e013afb73e"),
            (129, "c12cb024a2e5551cca0e08fce8f1c5e314555cc3fef6329ee994a3db752166ae"),
        ] {
            assert_eq!(hex_digest(&vec![b'a'; length]), expected, "{length} bytes");
        }
    }
}
