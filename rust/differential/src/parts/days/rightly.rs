//! What a moved deadline must be, by the list that the opening was given and by nothing else.
use crate::arbitrary::dates::number;
use crate::pair::Outcome;
use oracle::{DAY, DAYS};

/// Whether a deadline that falls on a second was moved to the right one.
pub fn moved(dates: Option<&[u32]>, falls: u64, deadline: u64) -> Outcome {
    let shut = |day: u64| match dates {
        Some(dates) => {
            let listed = day < u64::from(DAYS) && dates.contains(&number(day as u32));
            listed || matches!(day % 7, 2 | 3)
        }
        None => false,
    };
    let (from, to) = (falls / DAY, deadline / DAY);
    let right = match shut(from) {
        false => deadline == falls,
        true => from < to && deadline.is_multiple_of(DAY) && (from..to).all(shut) && !shut(to),
    };
    match right {
        true => Ok(()),
        false => Err(format!("a deadline on {falls} is {deadline}, by {dates:?}")),
    }
}

#[cfg(test)]
mod tests {
    use super::*;

    /// Saturday at noon, with the weekend shut, and with the Monday too.
    #[test]
    fn right_and_wrong() {
        let noon = 216_000;
        for (dates, right) in [
            (None, noon),
            (Some(&[][..]), 345_600),
            (Some(&[19_700_105]), 432_000),
            (Some(&[19_700_102, 19_700_104]), 345_600),
        ] {
            for deadline in [noon, 259_200, 345_600, 345_601, 388_800, 432_000] {
                let outcome = moved(dates, noon, deadline);
                assert_eq!(outcome.is_ok(), deadline == right, "{deadline}, {dates:?}");
            }
        }
        assert!(moved(Some(&[]), 172_799, 172_799).is_ok());
        assert!(moved(Some(&[]), 172_799, 345_600).is_err());
        assert!(moved(Some(&[]), DAY * u64::from(DAYS), 13_569_638_400).is_ok());
    }
}
