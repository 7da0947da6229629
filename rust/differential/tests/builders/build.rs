//! A plan through the builder of its command.
use differential::plan::{Hand, Plan};
use finaruvom::command::{
    CustomerClose, Dispute, Establish, FundCustomer, FundMerchant, MerchantClose, MutualClose,
    Reclaim, SetClock, Settle, Signatures,
};
use finaruvom::{Cents, Seconds, SIGNATURE_SIZE};

/// What a builder wrote.
pub struct Built {
    /// The command.
    pub command: Vec<u8>,
    /// What was signed; nothing for a command without signatures.
    pub message: Vec<u8>,
}

/// Signs as this party, with its leaf.
type Sign<'a> = &'a mut dyn FnMut(Hand, &[u8]) -> [u8; SIGNATURE_SIZE];

/// The command of a plan, for the book with the plan's id.
pub fn build(plan: &Plan, sign: Sign) -> Built {
    match plan.opcode {
        5 | 8 | 9 => signed_by_one(plan, sign),
        6 | 7 => signed_by_both(plan, sign),
        _ => Built {
            command: unsigned(plan),
            message: Vec::new(),
        },
    }
}

fn unsigned(plan: &Plan) -> Vec<u8> {
    let channel = plan.n;
    let [first, second] = plan.numbers;
    let amount = Cents(first);
    let time = Seconds(first);
    let [customer_key, merchant_key] = plan.keys;
    let establish = Establish {
        channel,
        customer_key,
        merchant_key,
        customer: Cents(first),
        merchant: Cents(second),
        delay: plan.delay,
    };
    match plan.opcode {
        1 => SetClock { time }.command().to_vec(),
        2 => establish.command().to_vec(),
        3 => FundCustomer { channel, amount }.command().to_vec(),
        4 => FundMerchant { channel, amount }.command().to_vec(),
        _ => Settle { channel }.command().to_vec(),
    }
}

fn signed_by_one(plan: &Plan, sign: Sign) -> Built {
    let channel = plan.n;
    let (_, id, _) = plan.signed;
    let [merchant, customer] = plan.signers;
    match plan.opcode {
        5 => {
            let reclaim = Reclaim { channel };
            let message = reclaim.message(&id);
            built(&reclaim.command(&sign(customer, &message)), &message)
        }
        8 => {
            let close = MerchantClose { channel };
            let message = close.message(&id);
            built(&close.command(&sign(merchant, &message)), &message)
        }
        _ => {
            let secret = plan.string;
            let dispute = Dispute { channel, secret };
            let message = dispute.message(&id);
            built(&dispute.command(&sign(merchant, &message)), &message)
        }
    }
}

fn signed_by_both(plan: &Plan, sign: Sign) -> Built {
    let channel = plan.n;
    let (_, id, _) = plan.signed;
    let [customer, merchant] = plan.numbers.map(Cents);
    let mutual = MutualClose {
        channel,
        customer,
        merchant,
    };
    let alone = CustomerClose {
        channel,
        lock: plan.string,
        customer,
        merchant,
    };
    let message = match plan.opcode {
        6 => mutual.message(&id).to_vec(),
        _ => alone.message(&id).to_vec(),
    };
    let [merchant, customer] = plan.signers.map(|hand| sign(hand, &message));
    let signatures = Signatures {
        merchant: &merchant,
        customer: &customer,
    };
    match plan.opcode {
        6 => built(&mutual.command(signatures), &message),
        _ => built(&alone.command(signatures), &message),
    }
}

fn built(command: &[u8], message: &[u8]) -> Built {
    Built {
        command: command.to_vec(),
        message: message.to_vec(),
    }
}
