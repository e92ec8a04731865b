//! The same checks straight between bytes and the flat structs, without allocation: what the
//! benchmark compares the library with. What is lent is stored into once all checks have passed.

mod assembly;
mod header;
pub mod ledger;
mod replay;
mod reply;
mod returned;
mod setup;

pub struct Plain;

fn number(outcome: Result<(), u32>) -> u32 {
    outcome.err().unwrap_or(0)
}

#[cfg(test)]
mod tests {
    use super::*;
    use crate::cases;
    use crate::check::Checker;

    #[test]
    fn agrees_with_the_reference() {
        let mut check = Checker::new(Plain, 3);
        assert_eq!(
            check.unseen().len(),
            11 + 6 + 1 + 3 + 2 + 2 + 3 + 11 + 16 + 3 + 3 + 4 + 1 + 3 + 4 + 11 + 32 + 32 + 106
        );
        cases::run(&mut check, 3, 20_000).unwrap();
        assert_eq!((check.unseen(), check.unwanted()), (vec![], vec![]));
    }
}
