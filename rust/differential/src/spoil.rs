//! Ways to make a command wrong.
use crate::plan::Plan;
use crate::rng::Rng;
use crate::wallet::Wallet;

type Spoil = fn(&mut Rng, &mut Plan);

/// What can be wrong in each kind of command.
fn spoils(opcode: u8) -> &'static [Spoil] {
    match opcode {
        1 => &[numbers],
        2 => &[rename, numbers, keys, delay],
        3 | 4 => &[rename, numbers],
        5 | 8 => &[rename, signer, signed],
        6 => &[rename, numbers, signer, signer, signed],
        7 => &[rename, numbers, signer, signer, signed],
        9 => &[rename, string, signer, signed],
        _ => &[rename],
    }
}

/// Changes one, two or three things in a plan; signers sign what it then says.
pub fn plan(rng: &mut Rng, plan: &mut Plan) {
    let mut left = spoils(plan.opcode).to_vec();
    for _ in 0..left.len().min(1 + rng.below(3)) {
        let spoil = left.swap_remove(rng.below(left.len()));
        spoil(rng, plan);
    }
}

/// Another channel's number, which the signers sign or not.
fn rename(rng: &mut Rng, plan: &mut Plan) {
    let other = rng.below(64) as u16;
    plan.n = rng.pick(&[other, 63, 64, 65, 256 + plan.n % 64, u16::MAX]);
    if rng.one_in(2) {
        plan.signed.2 = plan.n;
    }
}

/// Numbers off by one, at an edge, changed over, one or both 0, or with a sum that runs over 2^64 to
/// the right one.
fn numbers(rng: &mut Rng, plan: &mut Plan) {
    let at = rng.below(2);
    let [first, second] = plan.numbers;
    match rng.below(8) {
        0 => plan.numbers[at] = plan.numbers[at].wrapping_add(1),
        1 => plan.numbers[at] = plan.numbers[at].wrapping_sub(1),
        2 => plan.numbers[at] = rng.edge(),
        3 => plan.numbers = [rng.edge(), rng.edge()],
        4 => plan.numbers = [second, first],
        5 => plan.numbers[at] = 0,
        6 => plan.numbers = [0, 0],
        _ => plan.numbers = [u64::MAX, first.wrapping_add(second).wrapping_add(1)],
    }
}

/// A wrong type in a key, equal keys, or keys that are equal but for one bit anywhere.
fn keys(rng: &mut Rng, plan: &mut Plan) {
    let at = rng.below(2);
    match rng.below(4) {
        0 => plan.keys[0] = plan.keys[1],
        1 => plan.keys[at][3] = rng.pick(&[5, 7]),
        2 => plan.keys[at][7] = rng.pick(&[3, 5]),
        _ => {
            plan.keys[0] = plan.keys[1];
            rng.flip_bit(&mut plan.keys[at]);
        }
    }
}

/// A delay at or behind an edge.
fn delay(rng: &mut Rng, plan: &mut Plan) {
    plan.delay = rng.pick(&[1, 3_599, 3_600, 2_592_000, 2_592_001, u32::MAX]);
}

/// Another secret.
fn string(rng: &mut Rng, plan: &mut Plan) {
    rng.flip_bit(&mut plan.string);
}

/// Each signs for the other, or somebody else for one, more often for the customer, whose signature
/// is checked last.
fn signer(rng: &mut Rng, plan: &mut Plan) {
    let other = rng.below(Wallet::PARTIES);
    match rng.below(4) {
        0 => plan.signers.swap(0, 1),
        1 => plan.signers[0].party = other,
        _ => plan.signers[1].party = other,
    }
}

/// Another opcode, book id or channel is signed.
fn signed(rng: &mut Rng, plan: &mut Plan) {
    match rng.below(3) {
        0 => plan.signed.0 = 1 + rng.below(10) as u8,
        1 => rng.flip_bit(&mut plan.signed.1),
        _ => plan.signed.2 = rng.below(64) as u16,
    }
}

/// Damages a command's bytes.
pub fn bytes(rng: &mut Rng, command: Vec<u8>) -> Vec<u8> {
    let mut bytes = command;
    match rng.below(8) {
        0 => bytes.clear(),
        1 => bytes.truncate(bytes.len() - 1),
        2 => bytes.truncate(rng.below(bytes.len())),
        3 => bytes.push(rng.number() as u8),
        4 => bytes[0] = rng.pick(&[0, 1, 2, 5, 7, 10, 11, 0x81, 0xff]),
        _ => rng.flip_bit(&mut bytes),
    }
    bytes
}
