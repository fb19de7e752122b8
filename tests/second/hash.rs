//! The AES round and the two compression functions.

/// The two families of the hash. All numbers that belong to a family stand here.
#[derive(Clone, Copy, PartialEq, Eq, Debug)]
pub enum Family {
    Small,
    Large,
}

/// Where a counter word enters: place, which counter word, complemented or not.
type Entry = (usize, usize, bool);

const SMALL_ENTRIES: [Entry; 8] = [
    (16, 0, false),
    (17, 1, true),
    (57, 1, false),
    (58, 0, true),
    (86, 1, false),
    (87, 0, true),
    (124, 0, false),
    (127, 1, true),
];

const LARGE_ENTRIES: [Entry; 16] = [
    (32, 0, false),
    (33, 1, false),
    (34, 2, false),
    (35, 3, true),
    (164, 3, false),
    (165, 2, false),
    (166, 1, false),
    (167, 0, true),
    (316, 2, false),
    (317, 3, false),
    (318, 0, false),
    (319, 1, true),
    (440, 1, false),
    (441, 0, false),
    (442, 3, false),
    (443, 2, true),
];

impl Family {
    /// The family of an allowed digest length.
    pub fn of(m: u16) -> Family {
        if m <= 256 {
            Family::Small
        } else {
            Family::Large
        }
    }

    fn pick(self, small: usize, large: usize) -> usize {
        match self {
            Family::Small => small,
            Family::Large => large,
        }
    }

    pub fn block_bytes(self) -> usize {
        self.pick(64, 128)
    }

    pub fn chain_words(self) -> usize {
        self.pick(8, 16)
    }

    pub fn salt_bytes(self) -> usize {
        self.pick(32, 64)
    }

    pub fn length_bytes(self) -> usize {
        self.pick(8, 16)
    }

    /// Most bits of a rest that is padded in one block.
    pub fn one_block_bits(self) -> usize {
        self.pick(431, 879)
    }

    fn rounds(self) -> usize {
        self.pick(12, 14)
    }

    fn expanded_words(self) -> usize {
        self.pick(144, 448)
    }

    /// Second distance of a linear word.
    fn linear_tap(self) -> usize {
        self.pick(3, 7)
    }

    fn entries(self) -> &'static [Entry] {
        match self {
            Family::Small => &SMALL_ENTRIES,
            Family::Large => &LARGE_ENTRIES,
        }
    }
}

/// Table 1 of the source.
#[rustfmt::skip]
pub const SBOX: [u8; 256] = [
    0x63, 0x7C, 0x77, 0x7B, 0xF2, 0x6B, 0x6F, 0xC5, 0x30, 0x01, 0x67, 0x2B, 0xFE, 0xD7, 0xAB, 0x76,
    0xCA, 0x82, 0xC9, 0x7D, 0xFA, 0x59, 0x47, 0xF0, 0xAD, 0xD4, 0xA2, 0xAF, 0x9C, 0xA4, 0x72, 0xC0,
    0xB7, 0xFD, 0x93, 0x26, 0x36, 0x3F, 0xF7, 0xCC, 0x34, 0xA5, 0xE5, 0xF1, 0x71, 0xD8, 0x31, 0x15,
    0x04, 0xC7, 0x23, 0xC3, 0x18, 0x96, 0x05, 0x9A, 0x07, 0x12, 0x80, 0xE2, 0xEB, 0x27, 0xB2, 0x75,
    0x09, 0x83, 0x2C, 0x1A, 0x1B, 0x6E, 0x5A, 0xA0, 0x52, 0x3B, 0xD6, 0xB3, 0x29, 0xE3, 0x2F, 0x84,
    0x53, 0xD1, 0x00, 0xED, 0x20, 0xFC, 0xB1, 0x5B, 0x6A, 0xCB, 0xBE, 0x39, 0x4A, 0x4C, 0x58, 0xCF,
    0xD0, 0xEF, 0xAA, 0xFB, 0x43, 0x4D, 0x33, 0x85, 0x45, 0xF9, 0x02, 0x7F, 0x50, 0x3C, 0x9F, 0xA8,
    0x51, 0xA3, 0x40, 0x8F, 0x92, 0x9D, 0x38, 0xF5, 0xBC, 0xB6, 0xDA, 0x21, 0x10, 0xFF, 0xF3, 0xD2,
    0xCD, 0x0C, 0x13, 0xEC, 0x5F, 0x97, 0x44, 0x17, 0xC4, 0xA7, 0x7E, 0x3D, 0x64, 0x5D, 0x19, 0x73,
    0x60, 0x81, 0x4F, 0xDC, 0x22, 0x2A, 0x90, 0x88, 0x46, 0xEE, 0xB8, 0x14, 0xDE, 0x5E, 0x0B, 0xDB,
    0xE0, 0x32, 0x3A, 0x0A, 0x49, 0x06, 0x24, 0x5C, 0xC2, 0xD3, 0xAC, 0x62, 0x91, 0x95, 0xE4, 0x79,
    0xE7, 0xC8, 0x37, 0x6D, 0x8D, 0xD5, 0x4E, 0xA9, 0x6C, 0x56, 0xF4, 0xEA, 0x65, 0x7A, 0xAE, 0x08,
    0xBA, 0x78, 0x25, 0x2E, 0x1C, 0xA6, 0xB4, 0xC6, 0xE8, 0xDD, 0x74, 0x1F, 0x4B, 0xBD, 0x8B, 0x8A,
    0x70, 0x3E, 0xB5, 0x66, 0x48, 0x03, 0xF6, 0x0E, 0x61, 0x35, 0x57, 0xB9, 0x86, 0xC1, 0x1D, 0x9E,
    0xE1, 0xF8, 0x98, 0x11, 0x69, 0xD9, 0x8E, 0x94, 0x9B, 0x1E, 0x87, 0xE9, 0xCE, 0x55, 0x28, 0xDF,
    0x8C, 0xA1, 0x89, 0x0D, 0xBF, 0xE6, 0x42, 0x68, 0x41, 0x99, 0x2D, 0x0F, 0xB0, 0x54, 0xBB, 0x16,
];

/// Product in the field of 256 elements, modulus x^8 + x^4 + x^3 + x + 1.
pub fn field_product(a: u8, b: u8) -> u8 {
    let mut sum = 0u8;
    let mut power = a;
    for bit in 0..8 {
        if b >> bit & 1 == 1 {
            sum ^= power;
        }
        let carry = power & 0x80 != 0;
        power <<= 1;
        if carry {
            power ^= 0x1b;
        }
    }
    sum
}

fn double(a: u8) -> u8 {
    (a << 1) ^ if a & 0x80 != 0 { 0x1b } else { 0 }
}

/// One full AES round. Row r of column j is byte 3-r of word j.
pub fn aes_round(columns: [u32; 4], subkey: [u32; 4]) -> [u32; 4] {
    let before = columns.map(u32::to_be_bytes);
    let mut after = [0u32; 4];
    for j in 0..4 {
        let mut s = [0u8; 4];
        for (r, place) in s.iter_mut().enumerate() {
            // SubBytes, and ShiftRows: row r moves r places to the left.
            *place = SBOX[before[(j + r) % 4][r] as usize];
        }
        let mut mixed = [0u8; 4];
        for (r, place) in mixed.iter_mut().enumerate() {
            let (a, b, c, d) = (s[r], s[(r + 1) % 4], s[(r + 2) % 4], s[(r + 3) % 4]);
            // 2a + 3b + c + d
            *place = double(a) ^ double(b) ^ b ^ c ^ d;
        }
        after[j] = u32::from_be_bytes(mixed) ^ subkey[j];
    }
    after
}

/// The same round on 16 bytes, column by column, row 0 first.
pub fn aes_round_of_bytes(state: &[u8; 16], subkey: &[u8; 16]) -> [u8; 16] {
    let columns = |bytes: &[u8; 16]| {
        std::array::from_fn(|j| u32::from_be_bytes(std::array::from_fn(|r| bytes[4 * j + r])))
    };
    let after = aes_round(columns(state), columns(subkey)).map(u32::to_be_bytes);
    std::array::from_fn(|place| after[place / 4][place % 4])
}

fn four(words: &[u32]) -> [u32; 4] {
    [words[0], words[1], words[2], words[3]]
}

fn xor4(a: [u32; 4], b: [u32; 4]) -> [u32; 4] {
    [a[0] ^ b[0], a[1] ^ b[1], a[2] ^ b[2], a[3] ^ b[3]]
}

fn little_words(bytes: &[u8]) -> Vec<u32> {
    bytes.chunks(4).map(|c| u32::from_le_bytes([c[0], c[1], c[2], c[3]])).collect()
}

/// The message expansion.
fn expand(family: Family, block: &[u8], counter: u128, salt: &[u8]) -> Vec<u32> {
    let width = family.block_bytes() / 4;
    let total = family.expanded_words();
    let salt_words = little_words(&salt[..family.salt_bytes()]);
    let salt_groups = salt_words.len() / 4;
    let mut rk = little_words(&block[..family.block_bytes()]);
    while rk.len() < total {
        // One nonlinear stretch of `width` words, in groups of four.
        for group in 0..width / 4 {
            let i = rk.len();
            let input = [rk[i - width + 1], rk[i - width + 2], rk[i - width + 3], rk[i - width]];
            let salt_group = four(&salt_words[4 * (group % salt_groups)..]);
            let t = aes_round(xor4(input, salt_group), [0; 4]);
            for j in 0..4 {
                let mut word = t[j] ^ rk[i + j - 4];
                for &(place, which, complemented) in family.entries() {
                    if place == i + j {
                        let part = (counter >> (32 * which)) as u32;
                        word ^= if complemented { !part } else { part };
                    }
                }
                rk.push(word);
            }
        }
        if rk.len() == total {
            break;
        }
        // One linear stretch of `width` words.
        for _ in 0..width {
            let i = rk.len();
            rk.push(rk[i - width] ^ rk[i - family.linear_tap()]);
        }
    }
    rk
}

/// Whitening by the first four words, then one AES round for each further four, then one under zero.
fn keyed_rounds(x: [u32; 4], keys: &[u32]) -> [u32; 4] {
    let mut x = xor4(x, four(keys));
    for key in keys[4..].chunks(4) {
        x = aes_round(x, four(key));
    }
    aes_round(x, [0; 4])
}

fn cipher_small(chain: &[u32; 16], rk: &[u32]) -> [u32; 16] {
    let (mut l, mut r) = (four(&chain[0..]), four(&chain[4..]));
    for keys in rk.chunks(12) {
        (l, r) = (r, xor4(l, keyed_rounds(r, keys)));
    }
    let mut out = [0; 16];
    out[0..4].copy_from_slice(&l);
    out[4..8].copy_from_slice(&r);
    out
}

fn cipher_large(chain: &[u32; 16], rk: &[u32]) -> [u32; 16] {
    let mut l = four(&chain[0..]);
    let mut a = four(&chain[4..]);
    let mut b = four(&chain[8..]);
    let mut r = four(&chain[12..]);
    for keys in rk.chunks(32) {
        let left = xor4(l, keyed_rounds(a, &keys[..16]));
        let right = xor4(b, keyed_rounds(r, &keys[16..]));
        (l, a, b, r) = (r, left, a, right);
    }
    let mut out = [0; 16];
    for (quarter, words) in [l, a, b, r].iter().enumerate() {
        out[4 * quarter..4 * quarter + 4].copy_from_slice(words);
    }
    out
}

/// Compression: chain xor cipher(chain). Chain words past the family's own stay zero.
pub fn compress(
    family: Family,
    chain: &[u32; 16],
    block: &[u8],
    counter: u128,
    salt: &[u8; 64],
) -> [u32; 16] {
    let rk = expand(family, block, counter, salt);
    assert_eq!(rk.len(), family.rounds() * family.pick(12, 32));
    let mut out = match family {
        Family::Small => cipher_small(chain, &rk),
        Family::Large => cipher_large(chain, &rk),
    };
    for i in 0..family.chain_words() {
        out[i] ^= chain[i];
    }
    out
}

/// The starting chain for m bits, both start-up calls made with the given salt.
/// The rule of the hash is the zero salt; the source's salted digests need their own salt here.
pub fn starting_chain(family: Family, m: u16, salt: &[u8; 64]) -> [u32; 16] {
    let mut block = [0u8; 128];
    let master = master_value(family, salt);
    block[..2].copy_from_slice(&m.to_le_bytes());
    compress(family, &master, &block, 0, salt)
}

/// Compression of all zeros with counter 0.
pub fn master_value(family: Family, salt: &[u8; 64]) -> [u32; 16] {
    compress(family, &[0; 16], &[0; 128], 0, salt)
}
