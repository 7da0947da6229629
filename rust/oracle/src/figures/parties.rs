//! The customer and the merchant of the figures: channel 0, deposits 900 and 100.
use crate::sha256::digest;
use crate::signer::Signer;

pub const ID: [u8; 16] = [7; 16];
pub const SECRET: [u8; 32] = [0x5e; 32];

/// The two who sign.
pub struct Parties {
    customer: Signer,
    merchant: Signer,
}

impl Parties {
    pub fn new() -> Parties {
        let signer = |byte| Signer::with_leaves([byte; 32], [byte; 16], &[0, 1]);
        Parties {
            customer: signer(1),
            merchant: signer(2),
        }
    }

    /// The channel established with this delay, and funded by both.
    pub fn funding(&self, delay: u32) -> Vec<Vec<u8>> {
        let keys = [self.customer.key(), self.merchant.key()].concat();
        let deposits = numbers(900, 100);
        vec![
            [&[2, 0, 0][..], &keys, &deposits, &delay.to_be_bytes()].concat(),
            [&[3, 0, 0][..], &deposits[..8]].concat(),
            [&[4, 0, 0][..], &deposits[8..]].concat(),
        ]
    }

    /// A command with these operands behind n, signed by the merchant with this leaf, and then by
    /// the customer where both sign.
    pub fn signed(&self, opcode: u8, operands: &[u8], leaf: u32) -> Vec<u8> {
        let message = [&[opcode], &ID[..], &[0, 0], operands].concat();
        let mut command = [&[opcode, 0, 0], operands].concat();
        command.extend(self.merchant.sign(leaf, &[3; 32], &message));
        if matches!(opcode, 6 | 7) {
            command.extend(self.customer.sign(leaf, &[4; 32], &message));
        }
        command
    }

    /// The customer closes with 700 and 300.
    pub fn close(&self) -> Vec<u8> {
        let operands = [&digest(&SECRET)[..], &numbers(700, 300)].concat();
        self.signed(7, &operands, 0)
    }
}

/// Two numbers as operands.
pub fn numbers(first: u64, second: u64) -> Vec<u8> {
    [first.to_be_bytes(), second.to_be_bytes()].concat()
}
