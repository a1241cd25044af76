//! The words of the command line; bench/ reads its own so too.

/// The argument after the one with this name.
pub fn word(name: &str) -> Option<String> {
    std::env::args().skip_while(|argument| argument != name).nth(1)
}

/// The number after it.
pub fn number<T: std::str::FromStr>(name: &str, otherwise: T) -> T {
    word(name).map_or(otherwise, |number| number.parse().ok().expect("a number"))
}

/// Whether there is such an argument.
pub fn flag(name: &str) -> bool {
    std::env::args().any(|argument| argument == name)
}
