//! Statuses, types and numbers in plain words.

/// What a status says.
pub fn status(number: u32) -> &'static str {
    match number {
        0 => "can be played",
        1 => "the surface's sides are not 1 to 4,096, or its pixels are not width times height",
        2 => "the journal is not whole records, has over 20,000,000, or counts more in use than it has",
        3 => "the record is shorter than 8 bytes or longer than 16,777,216",
        4 => "the record is of a type that is not played",
        5 => "the record's Size is not its length, not a multiple of 4, or below its fixed part",
        6 => "a picture's header or bits do not lie inside the record",
        7 => "the source is transformed, or a picture's usage is not 0 (plain colours)",
        8 => "a picture's header is too short, or one of its fields is not one that is played",
        9 => "a picture's channel masks break their rules",
        10 => "a picture's bits are fewer than its rows need",
        11 => "the blend's operation, format or alpha is not played, or the source is needed and absent",
        12 => "an extent, sign or corner is out of bounds, or the source rectangle leaves its picture",
        13 => "the mask is absent or not 1 bit deep",
        14 => "the journal has no room for this play",
        15 => "the journal holds no play",
        16 => "the journal's last record does not close a play, names too many, or one of those is off the surface",
        21 => "two of the record's parts share bytes",
        _ => "this status is not known to the tool",
    }
}

/// A status with its number.
pub fn numbered(number: u32) -> String {
    format!("status {number}: {}", status(number))
}

/// The words as one line, whatever a file's name may hold: control characters are escaped.
pub fn one_line(words: &str) -> String {
    let escaped = |character: char| match character.is_control() {
        true => character.escape_default().to_string(),
        false => character.to_string(),
    };
    words.chars().map(escaped).collect::<String>() + "\n"
}

/// A number with its thousands set apart, as in 20,000,000.
pub fn count(number: u64) -> String {
    let digits = number.to_string();
    let mut text = String::new();
    for (place, digit) in digits.chars().enumerate() {
        if place > 0 && (digits.len() - place) % 3 == 0 {
            text.push(',');
        }
        text.push(digit);
    }
    text
}

/// A number of things: `1 play`, `2,000 plays`.
pub fn things(number: u64, one: &str) -> String {
    format!("{} {one}{}", count(number), if number == 1 { "" } else { "s" })
}

/// Numbers of records, neighbours drawn together: `record 3`, `records 1 to 4, 7, 9`. They stand in rising order.
pub fn records(numbers: &[usize]) -> String {
    let mut spans: Vec<(usize, usize)> = Vec::new();
    for &number in numbers {
        match spans.last_mut() {
            Some((_, last)) if *last + 1 == number => *last = number,
            _ => spans.push((number, number)),
        }
    }
    let span = |&(first, last): &(usize, usize)| match last - first {
        0 => format!("{first}"),
        1 => format!("{first}, {last}"),
        _ => format!("{first} to {last}"),
    };
    let spans: Vec<String> = spans.iter().map(span).collect();
    format!("record{} {}", if numbers.len() == 1 { "" } else { "s" }, spans.join(", "))
}

/// A float as short as it can be told from all others; very small and very large ones with an exponent.
pub fn float(number: f32) -> String {
    let size = number.abs();
    if size == 0.0 || (1e-4..1e7).contains(&size) {
        number.to_string()
    } else {
        format!("{number:e}")
    }
}

#[cfg(test)]
mod tests {
    use super::*;
    use std::collections::HashSet;

    #[test]
    fn each_status_has_its_own_words() {
        let all: HashSet<&str> = (0..=17).chain([21]).map(status).collect();
        assert_eq!(all.len(), 19);
        assert_eq!(numbered(15), "status 15: the journal holds no play");
        assert_eq!(status(17), status(u32::MAX));
    }

    #[test]
    fn lines() {
        assert_eq!(one_line("höhe\n\u{1B}[31m\u{9B}.png"), "höhe\\n\\u{1b}[31m\\u{9b}.png\n");
    }

    #[test]
    fn numbers() {
        assert_eq!(count(0), "0");
        assert_eq!(count(999), "999");
        assert_eq!(count(1000), "1,000");
        assert_eq!(count(20_000_000), "20,000,000");
        assert_eq!(things(1, "play"), "1 play");
        assert_eq!(things(0, "play"), "0 plays");
    }

    #[test]
    fn numbers_of_records() {
        assert_eq!(records(&[3]), "record 3");
        assert_eq!(records(&[1, 2]), "records 1, 2");
        assert_eq!(records(&[1, 2, 3, 4, 7, 9, 10]), "records 1 to 4, 7, 9, 10");
    }

    #[test]
    fn floats() {
        let told = [1.0, -0.5, 0.1, -0.0, 16_777_216.0, f32::from_bits(1), f32::NAN, f32::NEG_INFINITY].map(float);
        assert_eq!(told, ["1", "-0.5", "0.1", "-0", "1.6777216e7", "1e-45", "NaN", "-inf"]);
    }
}
