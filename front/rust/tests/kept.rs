//! Tasks that keep a bit when they are dropped. They stay, with the memory of their Domain, so this is not for a checker
//! of leaks.

use sugwelan::{Bit, Domain, Error, Task, Uninterruptible as PLAIN};

const BIT: Bit = Bit::new(2, 5);
const OTHER: Bit = Bit::new(2, 6);

/// One that keeps a bit does not go back: the bit stays taken, and its number is not used again.
#[test]
fn a_task_that_keeps_a_bit_is_not_used_again() {
    let domain = Domain::new().unwrap();
    let mut keeper = domain.task().unwrap();
    let number = keeper.number();
    assert_eq!(keeper.trylock_bit(BIT), Ok(true));
    drop(keeper);
    let mut rest: Vec<Task> = std::iter::from_fn(|| domain.task().ok()).collect();
    assert_eq!(rest.len(), 254);
    assert!(rest.iter().all(|task| task.number() != number));
    assert_eq!(rest[0].trylock_bit(BIT), Ok(false));
    std::mem::forget(domain.bit_lock(OTHER).lock(&mut rest[0], PLAIN).unwrap());
    assert_eq!(rest.swap_remove(0).close().unwrap_err().1, Error::Keeps);
}
