//! Messages worked out by hand, byte for byte.
//!
//! The hashes are those of the main chain's first blocks as they stand on the wire, that is the double SHA-256 of each 80-byte header, its bytes in
//! order (a block explorer shows them the other way round): the genesis block's in Bitcoin Core's chainparams.cpp, the next two in the headers after it.
//! The types are BIP 144's (MSG_WITNESS_BLOCK 0x40000002, MSG_WITNESS_TX 0x40000001, MSG_FILTERED_WITNESS_BLOCK 0x40000003), the protocol's older ones
//! (MSG_TX 1, MSG_BLOCK 2, MSG_FILTERED_BLOCK 3) and BIP 152's (MSG_CMPCT_BLOCK 4). The count is the protocol's "variable length integer".
//!
//! One message is published whole: the example of an inventory in the Bitcoin developer reference (inv; "the format … of the getdata message" is the same),
//! which names two transactions. As a getdata payload it is refused for its types, and accepted once these are the witness block's.

/// A payload and its hashes as words; `None` is refused by 11.
pub struct Message {
    pub what: &'static str,
    pub payload: Vec<u8>,
    pub words: Option<Vec<u64>>,
}

/// 000000000019d6689c085ae165831e934ff763ae46a2a6c172b3f1b60a8ce26f
const GENESIS: &str = "6fe28c0a b6f1b372 c1a6a246 ae63f74f 931e8365 e15a089c 68d61900 00000000";
const GENESIS_WORDS: [u64; 4] = [0x6fe28c0ab6f1b372, 0xc1a6a246ae63f74f, 0x931e8365e15a089c, 0x68d6190000000000];
/// 00000000839a8e6886ab5951d76f411475428afc90947ee320161bbf18eb6048
const BLOCK_1: &str = "4860eb18 bf1b1620 e37e9490 fc8a4275 14416fd7 5159ab86 688e9a83 00000000";
const BLOCK_1_WORDS: [u64; 4] = [0x4860eb18bf1b1620, 0xe37e9490fc8a4275, 0x14416fd75159ab86, 0x688e9a8300000000];
/// 000000006a625f06636b8bb6ac7b960a8d03705d1ace08b1a19da3fdcc99ddbd
const BLOCK_2: &str = "bddd99cc fda39da1 b108ce1a 5d70038d 0a967bac b68b6b63 065f626a 00000000";
const BLOCK_2_WORDS: [u64; 4] = [0xbddd99ccfda39da1, 0xb108ce1a5d70038d, 0x0a967bacb68b6b63, 0x065f626a00000000];

/// The developer reference's two hashes.
const EXAMPLE_1: &str = "de55ffd709ac1f5dc509a0925d0b1fc4 42ca034f224732e429081da1b621f55a";
const EXAMPLE_1_WORDS: [u64; 4] = [0xde55ffd709ac1f5d, 0xc509a0925d0b1fc4, 0x42ca034f224732e4, 0x29081da1b621f55a];
const EXAMPLE_2: &str = "91d36d997037e08018262978766f24b8 a055aaf1d872e94ae85e9817b2c68dc7";
const EXAMPLE_2_WORDS: [u64; 4] = [0x91d36d997037e080, 0x18262978766f24b8, 0xa055aaf1d872e94a, 0xe85e9817b2c68dc7];

pub fn messages() -> Vec<Message> {
    let mut messages = vec![
        accepted("nothing asked for", "00".into(), &[]),
        accepted("the genesis block", format!("01 02000040 {GENESIS}"), &GENESIS_WORDS),
        accepted("block 1", format!("01 02000040 {BLOCK_1}"), &BLOCK_1_WORDS),
        accepted(
            "blocks 1 and 2",
            format!("02 02000040 {BLOCK_1} 02000040 {BLOCK_2}"),
            [BLOCK_1_WORDS, BLOCK_2_WORDS].as_flattened(),
        ),
        accepted(
            "blocks 2, 1 and 2 again",
            format!("03 02000040 {BLOCK_2} 02000040 {BLOCK_1} 02000040 {BLOCK_2}"),
            [BLOCK_2_WORDS, BLOCK_1_WORDS, BLOCK_2_WORDS].as_flattened(),
        ),
        refused("the developer reference's inventory", format!("02 01000000 {EXAMPLE_1} 01000000 {EXAMPLE_2}")),
        accepted(
            "the same, asking for witness blocks",
            format!("02 02000040 {EXAMPLE_1} 02000040 {EXAMPLE_2}"),
            [EXAMPLE_1_WORDS, EXAMPLE_2_WORDS].as_flattened(),
        ),
    ];
    for (prefix, count) in [("fc", 252), ("fdfd00", 253), ("fdfe00", 254), ("fdff00", 255), ("fd0001", 256)] {
        messages.push(accepted("the genesis block many times", many(prefix, count), &GENESIS_WORDS.repeat(count)));
    }
    messages.extend(types().map(|(what, kind)| refused(what, format!("01 {kind} {GENESIS}"))));
    messages.extend(types().map(|(what, kind)| refused(what, format!("02 02000040 {BLOCK_1} {kind} {BLOCK_2}"))));
    messages.extend(counts().map(|(what, prefix, count)| refused(what, many(prefix, count))));
    messages.extend(lengths());
    messages
}

fn accepted(what: &'static str, payload: String, words: &[u64]) -> Message {
    Message { what, payload: bytes(&payload), words: Some(words.to_vec()) }
}

fn refused(what: &'static str, payload: String) -> Message {
    Message { what, payload: bytes(&payload), words: None }
}

/// After a count, the genesis block so often.
fn many(prefix: &str, count: usize) -> String {
    format!("{prefix} {}", format!("02000040 {GENESIS} ").repeat(count))
}

/// Types that are not the witness block's.
fn types() -> impl Iterator<Item = (&'static str, &'static str)> {
    [
        ("MSG_BLOCK", "02000000"),
        ("MSG_TX", "01000000"),
        ("MSG_FILTERED_BLOCK", "03000000"),
        ("MSG_CMPCT_BLOCK", "04000000"),
        ("MSG_WITNESS_TX", "01000040"),
        ("MSG_FILTERED_WITNESS_BLOCK", "03000040"),
        ("the type's high byte first", "40000002"),
        ("a type of 0", "00000000"),
        ("a type with bit 31", "020000c0"),
        ("a type with bit 8", "02010040"),
        ("bytes that make the type if the second counted 257, or the third 65,537", "03ffff3f"),
        ("bytes that make it if the second and the third counted the same", "0280803f"),
        ("bytes that make it if the second counted 1", "01010040"),
        ("the second byte for the first", "00020040"),
        ("bytes that make it if the third counted 1", "01000140"),
    ]
    .into_iter()
}

/// Counts in a form that is not theirs, or above 256, before as many entries as they say.
fn counts() -> impl Iterator<Item = (&'static str, &'static str, usize)> {
    [
        ("0 in three bytes", "fd0000", 0),
        ("1 in three bytes", "fd0100", 1),
        ("252 in three bytes", "fdfc00", 252),
        ("0 in five bytes", "fe00000000", 0),
        ("1 in five bytes", "fe01000000", 1),
        ("253 in five bytes", "fefd000000", 253),
        ("256 in five bytes", "fe00010000", 256),
        ("0 in nine bytes", "ff0000000000000000", 0),
        ("1 in nine bytes", "ff0100000000000000", 1),
        ("256 in nine bytes", "ff0001000000000000", 256),
        ("253 in one byte", "fd", 253),
        ("254 in one byte", "fe", 254),
        ("255 in one byte", "ff", 255),
        ("253 with its high byte first", "fd00fd", 253),
        ("256 with its high byte first", "fd0100", 256),
        ("257", "fd0101", 257),
        ("512", "fd0002", 512),
        ("65,536 before no entry", "fe00000100", 0),
        ("65,537 before one entry", "fe01000100", 1),
    ]
    .into_iter()
}

/// A payload of another length than its count says.
fn lengths() -> Vec<Message> {
    vec![
        refused("no byte at all", String::new()),
        refused("no entry, and a byte more", "00 00".into()),
        refused("no entry, and one", format!("00 02000040 {GENESIS}")),
        refused("one entry that is not there", "01".into()),
        refused("one entry without a hash", "01 02000040".into()),
        refused("one entry without its last byte", format!("01 02000040 {}", &GENESIS[..GENESIS.len() - 2])),
        refused("one entry, and a byte more", format!("01 02000040 {GENESIS} 00")),
        refused("one entry, and another", format!("01 02000040 {GENESIS} 02000040 {BLOCK_1}")),
        refused("two entries, one there", format!("02 02000040 {GENESIS}")),
        refused("an entry without a count", format!("02000040 {GENESIS}")),
        refused("three bytes of count, one there", "fd".into()),
        refused("three bytes of count, two there", "fdfd".into()),
        refused("three bytes of count, no entry", "fdfd00".into()),
        refused("253 entries, 252 there", many("fdfd00", 252)),
        refused("252 entries, 253 there", many("fc", 253)),
        refused("253 entries, and a byte more", many("fdfd00", 253) + "02"),
    ]
}

/// The bytes of hex digits, blanks left out.
fn bytes(hex: &str) -> Vec<u8> {
    let digits: Vec<u32> = hex.chars().filter(|digit| *digit != ' ').map(|digit| digit.to_digit(16).expect("hex")).collect();
    digits.chunks(2).map(|pair| (pair[0] << 4 | pair[1]) as u8).collect()
}
