//! Numbers and lists in words.

/// `one cart`, `two carts`, `13 carts`.
pub fn count(number: usize, one: &str) -> String {
    const SMALL: [&str; 13] = [
        "no", "one", "two", "three", "four", "five", "six", "seven", "eight", "nine", "ten",
        "eleven", "twelve",
    ];
    let plural = if number == 1 { "" } else { "s" };
    match SMALL.get(number) {
        Some(word) => format!("{word} {one}{plural}"),
        None => format!("{number} {one}{plural}"),
    }
}

/// `1`, `1 and 4`, `1, 4 and 7`.
pub fn list<T: ToString>(numbers: &[T]) -> String {
    let words: Vec<String> = numbers.iter().map(T::to_string).collect();
    match words.split_last() {
        None => "none".to_string(),
        Some((last, [])) => last.clone(),
        Some((last, others)) => format!("{} and {last}", others.join(", ")),
    }
}

/// `cart 4`, `carts 1 and 4`, `no cart`.
pub fn named<T: ToString>(one: &str, numbers: &[T]) -> String {
    match numbers {
        [] => format!("no {one}"),
        [number] => format!("{one} {}", number.to_string()),
        _ => format!("{one}s {}", list(numbers)),
    }
}

/// `stands` after one, `stand` after several.
pub fn verb<'a>(number: usize, one: &'a str, several: &'a str) -> &'a str {
    if number == 1 {
        one
    } else {
        several
    }
}
