//! A command before it is signed and written down.
use oracle::SIGNATURE;

/// Who signs, and with which leaf.
#[derive(Clone, Copy, Debug, PartialEq, Eq, Hash)]
pub struct Hand {
    /// The party.
    pub party: usize,
    /// The leaf; where there is none, the message chooses it.
    pub leaf: Option<u32>,
}

impl From<usize> for Hand {
    fn from(party: usize) -> Hand {
        Hand { party, leaf: None }
    }
}

/// All operands that a command of any kind may need, and what its signers sign.
#[derive(Clone, Debug)]
pub struct Plan {
    /// 01 to 0A.
    pub opcode: u8,
    /// The channel.
    pub n: u16,
    /// Time, cents, deposits, or c and b.
    pub numbers: [u64; 2],
    /// The customer's and the merchant's key.
    pub keys: [[u8; 56]; 2],
    /// The delay of 02.
    pub delay: u32,
    /// The lock of 07 or the secret of 09.
    pub string: [u8; 32],
    /// Who signs as merchant and as customer.
    pub signers: [Hand; 2],
    /// What is signed in place of opcode, book id and n.
    pub signed: (u8, [u8; 16], u16),
}

impl Plan {
    /// The command's bytes, with what `sign` gives for a signer and a message.
    pub fn write(&self, mut sign: impl FnMut(Hand, &[u8]) -> [u8; SIGNATURE]) -> Vec<u8> {
        let operands = self.operands();
        let (opcode, id, n) = self.signed;
        let message = [&[opcode], &id[..], &n.to_be_bytes(), &operands].concat();
        let mut bytes = vec![self.opcode];
        if self.opcode != 1 {
            bytes.extend(self.n.to_be_bytes());
        }
        bytes.extend(&operands);
        for &signer in self.signing() {
            bytes.extend(sign(signer, &message));
        }
        bytes
    }

    /// The operands between n and the first signature.
    fn operands(&self) -> Vec<u8> {
        let [first, second] = self.numbers.map(u64::to_be_bytes);
        match self.opcode {
            1 | 3 | 4 => first.to_vec(),
            2 => {
                let delay = self.delay.to_be_bytes();
                [&self.keys[0][..], &self.keys[1], &first, &second, &delay].concat()
            }
            6 => [first, second].concat(),
            7 => [&self.string[..], &first, &second].concat(),
            9 => self.string.to_vec(),
            _ => Vec::new(),
        }
    }

    /// Who signs, in the order of the signatures.
    fn signing(&self) -> &[Hand] {
        match self.opcode {
            5 => &self.signers[1..],
            6 | 7 => &self.signers,
            8 | 9 => &self.signers[..1],
            _ => &[],
        }
    }
}
