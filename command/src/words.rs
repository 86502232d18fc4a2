//! Numbers and refusals in words.
use corrector::{Refusal, MAX_KEYS};

/// A whole number with commas between its thousands.
pub fn number(value: impl Into<u128>) -> String {
    let digits = value.into().to_string();
    let mut text = String::with_capacity(digits.len() * 4 / 3);
    for (i, digit) in digits.chars().enumerate() {
        if i > 0 && (digits.len() - i) % 3 == 0 {
            text.push(',');
        }
        text.push(digit);
    }
    text
}

/// A number and its noun.
pub fn counted(value: u64, one: &str, more: &str) -> String {
    format!("{} {}", number(value), if value == 1 { one } else { more })
}

/// Why a set is refused, and what to do.
pub fn of_set(refusal: Refusal) -> String {
    let number = refusal.number();
    let text = match refusal {
        Refusal::SetLength => "it is empty, or its length is no multiple of 512 bytes: the file is cut, fetch it again".into(),
        Refusal::SetCheck { block } => {
            format!("block {block} (bytes {} to {}) has a wrong check word: the file is damaged, fetch it again", block * 512, block * 512 + 511)
        }
        Refusal::SetHeader => format!(
            "its header is wrong: k must be odd from 1 to 31, there may be {} keys at most, and as many blocks as they take; make the set again",
            self::number(MAX_KEYS as u64)
        ),
        Refusal::SetKey { word } => {
            format!("key word {word} (counted from 0) is not canonical, too large, not rising, or a spare word that is not zero; make the set again")
        }
        other => other.to_string(),
    };
    format!("refused ({number}): {text}")
}

/// Why any other call is refused, where the place says nothing of a file.
pub fn of_call(refusal: Refusal) -> String {
    format!("refused ({}): {refusal}", refusal.number())
}

#[cfg(test)]
mod tests {
    #[test]
    fn thousands() {
        assert_eq!(super::number(0_u64), "0");
        assert_eq!(super::number(999_u64), "999");
        assert_eq!(super::number(1_000_u64), "1,000");
        assert_eq!(super::number(16_777_216_u64), "16,777,216");
    }
}
