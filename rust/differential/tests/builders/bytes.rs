//! Builders with any operands write what plans write, and the oracle reads the operands back.
use crate::build::build;
use differential::plan::{Hand, Plan};
use differential::rng::Rng;
use oracle::{digest, Command, Order, SIGNATURE};

const MERCHANT: usize = 1;
const CUSTOMER: usize = 0;

/// A plan with any operands.
fn plan(rng: &mut Rng, opcode: u8) -> Plan {
    let n = rng.number() as u16;
    Plan {
        opcode,
        n,
        numbers: [rng.number(), rng.number()],
        keys: [rng.array(), rng.array()],
        delay: rng.number() as u32,
        string: rng.array(),
        signers: [MERCHANT, CUSTOMER].map(Hand::from),
        signed: (opcode, rng.array(), n),
    }
}

/// Bytes that depend on signer and message, in the place of a signature.
fn stand_in(hand: Hand, message: &[u8]) -> [u8; SIGNATURE] {
    let start = digest(&[&[hand.party as u8], message].concat());
    std::array::from_fn(|at| start[at % 32].wrapping_add((at / 32) as u8))
}

/// Asserts that the oracle reads the plan's operands in a command.
fn same_operands(plan: &Plan, command: &Command) {
    let channel = (plan.opcode != 1).then_some(plan.n);
    assert_eq!(command.channel, channel);
    let [first, second] = plan.numbers;
    match (plan.opcode, command.order) {
        (1, Order::Clock { time }) => assert_eq!(time, first),
        (2, order) => same_terms(plan, order),
        (3, Order::CustomerFunds { cents }) | (4, Order::MerchantFunds { cents }) => {
            assert_eq!(cents, first);
        }
        (6, Order::MutualClose { customer, merchant }) => {
            assert_eq!([customer, merchant], [first, second]);
        }
        (
            7,
            Order::CustomerCloses {
                lock,
                customer,
                merchant,
            },
        ) => {
            assert_eq!(*lock, plan.string);
            assert_eq!([customer, merchant], [first, second]);
        }
        (9, Order::Dispute { secret }) => assert_eq!(*secret, plan.string),
        (5, Order::Reclaim) | (8, Order::MerchantCloses) | (10, Order::Settle) => {}
        _ => panic!("{:02X} is read as another command", plan.opcode),
    }
}

/// Asserts that the oracle reads the plan's operands in an 02.
fn same_terms(plan: &Plan, order: Order) {
    let Order::Establish {
        customer,
        merchant,
        customer_deposit,
        merchant_deposit,
        delay,
    } = order
    else {
        panic!("02 is read as another command");
    };
    assert_eq!([*customer, *merchant], plan.keys);
    assert_eq!([customer_deposit, merchant_deposit], plan.numbers);
    assert_eq!(delay, plan.delay);
}

/// Asserts that the oracle reads the message that was signed, and the signatures of it.
fn same_signatures(plan: &Plan, command: &Command, message: &[u8]) {
    let by = |party: usize| Some(stand_in(party.into(), message));
    let [merchant, customer] = [command.merchant_signature(), command.customer_signature()]
        .map(|signature| signature.map(|bytes| bytes.try_into().unwrap()));
    let expected = match plan.opcode {
        5 => [None, by(CUSTOMER)],
        6 | 7 => [by(MERCHANT), by(CUSTOMER)],
        8 | 9 => [by(MERCHANT), None],
        _ => [None, None],
    };
    assert_eq!([merchant, customer], expected);
    if !message.is_empty() {
        assert_eq!(command.message(&plan.signed.1), message);
    }
}

#[test]
fn any_operands() {
    let rng = &mut Rng::new(1);
    for opcode in (1..=10).cycle().take(2_000) {
        let plan = plan(rng, opcode);
        let built = build(&plan, &mut stand_in);
        let what = format!("{opcode:02X}");
        assert_eq!(Some(built.command.len()), oracle::length(opcode), "{what}");
        assert!(built.command == plan.write(stand_in), "{what}");
        let command = Command::parse(&built.command).ok().unwrap();
        same_operands(&plan, &command);
        same_signatures(&plan, &command, &built.message);
        assert_eq!(built.message.is_empty(), matches!(opcode, 1..=4 | 10));
    }
}

#[test]
fn sizes() {
    for first in 0..=u8::MAX {
        let size = finaruvom::command::size(first);
        assert_eq!(size, oracle::length(first), "{first:02X}");
    }
}
