//! Digits that are handed to the linked library one by one: beside the value in whole numbers, and beside the builtin lint.
use bilzarko::{law_file, list, Digits, Lint, Mode, Settings, Tested};

/// The answers to all bytes, and the value after them.
fn pushed(bytes: &[u8]) -> (Vec<Tested>, Option<u32>) {
    let mut digits = Digits::new();
    let answers = bytes.iter().map(|&byte| digits.push(byte)).collect();
    (answers, digits.value())
}

/// The next of some numbers that look random.
fn next(seed: &mut u64) -> u64 {
    *seed ^= *seed << 13;
    *seed ^= *seed >> 7;
    *seed ^= *seed << 17;
    *seed
}

/// Are these digits a macrodigit? Up to 38 of them are in the type's range.
fn is_macrodigit(digits: &str) -> bool {
    digits.parse::<u128>().expect("digits") <= u128::from(u32::MAX)
}

#[test]
fn answers_are_those_of_the_value() {
    let mut seed = 1;
    for _ in 0..20_000 {
        let length = 1 + next(&mut seed) as usize % 38;
        let leading = next(&mut seed) as usize % (length + 1);
        let digits: String = (0..length)
            .map(|place| match place {
                _ if place < leading => '0',
                _ => char::from(b'0' + (next(&mut seed) % 10) as u8),
            })
            .collect();
        let (answers, value) = pushed(digits.as_bytes());
        for (place, &answer) in answers.iter().enumerate() {
            let wanted = match is_macrodigit(&digits[..=place]) {
                true => Tested::AtMost,
                false => Tested::Past,
            };
            assert_eq!(answer, wanted, "{digits} up to {place}");
        }
        assert_eq!(value, digits.parse().ok(), "{digits}");
    }
}

#[test]
fn edges_are_told() {
    let zeros = "0".repeat(64);
    for (number, value) in [
        ("4294967295", Some(u32::MAX)),
        ("4294967296", None),
        (&"9".repeat(64), None),
        (&zeros, Some(0)),
        ("18446744073709551616", None),
    ] {
        let last = match value {
            Some(_) => Tested::AtMost,
            None => Tested::Past,
        };
        for number in [number.to_string(), format!("{zeros}{number}")] {
            let (answers, found) = pushed(number.as_bytes());
            assert_eq!((answers.last(), found), (Some(&last), value), "{number}");
        }
    }
}

#[test]
fn other_bytes_leave_the_digits() {
    for byte in 0..=u8::MAX {
        let mut digits = Digits::new();
        digits.push(b'7');
        let before = digits;
        let is_digit = byte.is_ascii_digit();
        assert_eq!(digits.push(byte) == Tested::NoDigit, !is_digit, "{byte}");
        assert_eq!(digits == before, !is_digit, "{byte}");
    }
}

/// `<Div N 0>` is listed as a division by zero exactly where N is a macrodigit: of another number the lint says nothing.
#[test]
fn lint_asks_the_same() {
    let mut seed = 2;
    let mut met = [0; 2];
    for round in 0..2_000 {
        let near = u64::from(u32::MAX) - 500 + next(&mut seed) % 1_000;
        let zeros = "0".repeat(next(&mut seed) as usize % 50);
        let number = match round % 2 {
            0 => format!("{zeros}{near}"),
            _ => format!("{zeros}{}", next(&mut seed) >> (next(&mut seed) % 64)),
        };
        let number = &number[..number.len().min(64)];
        let (answers, _) = pushed(number.as_bytes());
        let past = answers.last() == Some(&Tested::Past);
        let law = law_file(format!("F {{ = <Div {number} 0>; }}").as_bytes()).expect("a law");
        let listing = list(&Settings::new(Mode::Strict), &law).expect("a listing");
        let lints: Vec<Lint> = listing
            .findings
            .iter()
            .map(|one| one.finding.lint)
            .collect();
        let wanted: &[Lint] = if past { &[] } else { &[Lint::BuiltinDomain] };
        assert_eq!(lints, wanted, "{number}");
        met[usize::from(past)] += 1;
    }
    assert!(met.iter().all(|&count| count > 300), "{met:?}");
}
