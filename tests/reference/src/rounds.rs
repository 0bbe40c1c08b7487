//! How much is run.

/// So many times more rounds are made in a long run.
const LONGER: usize = 20;

/// The rounds to make: the given number, and more where the environment has `PRESSBADGER_LONG=1`.
pub fn rounds(usual: usize) -> usize {
    let long = std::env::var_os("PRESSBADGER_LONG").is_some_and(|value| value == "1");
    if long {
        usual * LONGER
    } else {
        usual
    }
}
