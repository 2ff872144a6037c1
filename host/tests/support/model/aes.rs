//! AES-128 encryption (FIPS 197), the S-box computed from its rule.
use std::sync::OnceLock;

/// The product in the field with polynomial 0x11B.
fn product(mut a: u8, mut b: u8) -> u8 {
    let mut sum = 0;
    while b != 0 {
        if b & 1 == 1 {
            sum ^= a;
        }
        let carry = a & 0x80 != 0;
        a <<= 1;
        if carry {
            a ^= 0x1B;
        }
        b >>= 1;
    }
    sum
}

/// FIPS 197, 5.1.1: the inverse, 0 sent to 0, then the affine map.
fn s_box() -> &'static [u8; 256] {
    static TABLE: OnceLock<[u8; 256]> = OnceLock::new();
    TABLE.get_or_init(|| {
        std::array::from_fn(|a| {
            let inverse = (0..=255u8).find(|&b| product(a as u8, b) == 1).unwrap_or(0);
            (0..5).fold(0x63, |sum, turn| sum ^ inverse.rotate_left(turn))
        })
    })
}

/// FIPS 197, 5.2: eleven round keys of 16 bytes.
fn key_expansion(key: &[u8; 16]) -> [[u8; 16]; 11] {
    let table = s_box();
    let mut words: Vec<[u8; 4]> = key.chunks(4).map(|word| std::array::from_fn(|i| word[i])).collect();
    let mut round_constant = 1;
    for i in 4..44 {
        let mut word = words[i - 1];
        if i % 4 == 0 {
            word.rotate_left(1);
            word = word.map(|byte| table[usize::from(byte)]);
            word[0] ^= round_constant;
            round_constant = product(round_constant, 2);
        }
        let before = words[i - 4];
        words.push(std::array::from_fn(|j| before[j] ^ word[j]));
    }
    std::array::from_fn(|round| std::array::from_fn(|i| words[4 * round + i / 4][i % 4]))
}

fn add(state: &mut [u8; 16], round_key: &[u8; 16]) {
    state.iter_mut().zip(round_key).for_each(|(byte, key)| *byte ^= key);
}

/// SubBytes and ShiftRows: byte `row` of a column comes from the column `row` places on.
fn substitute_and_shift(state: &[u8; 16]) -> [u8; 16] {
    let table = s_box();
    std::array::from_fn(|i| table[usize::from(state[(i + 4 * (i % 4)) % 16])])
}

fn mix_columns(state: &[u8; 16]) -> [u8; 16] {
    std::array::from_fn(|i| {
        let byte = |step: usize| state[i / 4 * 4 + (i + step) % 4];
        product(byte(0), 2) ^ product(byte(1), 3) ^ byte(2) ^ byte(3)
    })
}

/// The cipher under one key.
pub struct Cipher([[u8; 16]; 11]);

impl Cipher {
    pub fn new(key: &[u8; 16]) -> Self {
        Self(key_expansion(key))
    }

    pub fn encrypt(&self, block: &[u8; 16]) -> [u8; 16] {
        let mut state = *block;
        add(&mut state, &self.0[0]);
        for round_key in &self.0[1..10] {
            state = mix_columns(&substitute_and_shift(&state));
            add(&mut state, round_key);
        }
        state = substitute_and_shift(&state);
        add(&mut state, &self.0[10]);
        state
    }
}

/// One block under a key.
pub fn encrypt(key: &[u8; 16], block: &[u8; 16]) -> [u8; 16] {
    Cipher::new(key).encrypt(block)
}
