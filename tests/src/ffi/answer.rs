//! An answer of a C function, which is one number.

/// An answer of the library, taken apart.
#[derive(Clone, Copy, Debug, PartialEq, Eq)]
pub enum Answer {
    Done(u64),
    Refused { number: u32, place: u32 },
}

const REFUSED: u64 = 1 << 63;

impl Answer {
    /// Below 2^63 an answer is the value. From there on it is 2^63 + number * 2^32 + place.
    pub fn decode(answer: u64) -> Answer {
        if answer < REFUSED {
            return Answer::Done(answer);
        }
        Answer::Refused {
            number: ((answer - REFUSED) >> 32) as u32,
            place: answer as u32,
        }
    }
}

#[cfg(test)]
mod tests {
    use super::Answer;

    #[test]
    fn answers_are_taken_apart() {
        assert_eq!(Answer::decode(7), Answer::Done(7));
        assert_eq!(Answer::decode((1 << 63) - 1), Answer::Done((1 << 63) - 1));
        let refused = (1 << 63) + 2 * (1 << 32) + 126;
        let expected = Answer::Refused {
            number: 2,
            place: 126,
        };
        assert_eq!(Answer::decode(refused), expected);
    }
}
