//! What is chosen from the environment.

/// Where the generated inputs begin.
pub fn seed() -> u64 {
    number("OUTSIDE_SEED", 20_240_315)
}

/// How many inputs are generated.
pub fn count(otherwise: u64) -> u64 {
    number("OUTSIDE_COUNT", otherwise)
}

fn number(name: &str, otherwise: u64) -> u64 {
    match std::env::var(name) {
        Ok(text) => text.parse().unwrap_or_else(|_| panic!("{name} isn't a number: {text}")),
        Err(_) => otherwise,
    }
}
