//! The AES round over four tables (document 02, request Seven), one for each row of the state.

use crate::hash::{field_product, SBOX};

/// The matrix of MixColumns, line by line.
const MIX: [[u8; 4]; 4] = [[2, 3, 1, 1], [1, 2, 3, 1], [1, 1, 2, 3], [3, 1, 1, 2]];

/// By row and byte: what this byte in this row adds to its column of the result. Row 0 of the
/// column is the word's most significant byte.
pub struct Tables([[u32; 256]; 4]);

impl Tables {
    pub fn computed() -> Tables {
        Tables([0, 1, 2, 3].map(|row| SBOX.map(|value| multiplied(row, value))))
    }

    pub fn entry(&self, row: usize, byte: u8) -> u32 {
        self.0[row][byte as usize]
    }

    /// One full AES round on 16 bytes, column by column, row 0 first.
    pub fn round(&self, state: &[u8; 16], subkey: &[u8; 16]) -> [u8; 16] {
        let mut after = *subkey;
        for (j, column) in after.chunks_mut(4).enumerate() {
            let mut word = u32::from_be_bytes([column[0], column[1], column[2], column[3]]);
            for row in 0..4 {
                // ShiftRows: row r moves r places to the left.
                word ^= self.entry(row, state[4 * ((j + row) % 4) + row]);
            }
            column.copy_from_slice(&word.to_be_bytes());
        }
        after
    }
}

/// The share that a row with this S-box value has in each row of the mixed column.
fn multiplied(row: usize, value: u8) -> u32 {
    u32::from_be_bytes(MIX.map(|line| field_product(value, line[row])))
}
