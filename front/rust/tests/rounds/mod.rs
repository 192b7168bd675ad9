//! How many rounds the tests make.

/// The number of the variable ROUNDS, or 1,000 where there is none.
pub fn rounds() -> u64 {
    let given = std::env::var("ROUNDS").ok();
    given.and_then(|number| number.parse().ok()).unwrap_or(1000)
}
