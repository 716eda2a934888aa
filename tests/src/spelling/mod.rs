//! A text in other letters (request R-9): names in label text may have small letters, which are taken as capitals.

pub mod by_hand;

use crate::rng::Rng;

/// In which letters a text is written. Bytes that are no letters stay as they are.
#[derive(Clone, Copy, Debug, PartialEq, Eq)]
pub enum Spelling {
    Capitals,
    Small,
    /// A small letter at every second byte.
    InTurn,
    /// Each letter by chance.
    Random,
}

impl Spelling {
    pub const ALL: [Spelling; 4] = [
        Spelling::Capitals,
        Spelling::Small,
        Spelling::InTurn,
        Spelling::Random,
    ];

    /// The text in these letters.
    pub fn of(self, text: &[u8], rng: &mut Rng) -> Vec<u8> {
        let first = rng.index(2);
        let spelled = text.iter().enumerate().map(|(at, byte)| {
            let is_small = match self {
                Spelling::Capitals => false,
                Spelling::Small => true,
                Spelling::InTurn => at % 2 == first,
                Spelling::Random => rng.once_in(2),
            };
            match is_small {
                true => byte.to_ascii_lowercase(),
                false => byte.to_ascii_uppercase(),
            }
        });
        spelled.collect()
    }
}

/// The text in each of the letters, but for those that it is in.
pub fn others(text: &[u8], rng: &mut Rng) -> Vec<Vec<u8>> {
    let spelled = Spelling::ALL.map(|it| it.of(text, rng)).into_iter();
    spelled.filter(|other| other != text).collect()
}

/// As it is, or in any letters.
pub fn in_some_letters(text: Vec<u8>, rng: &mut Rng) -> Vec<u8> {
    match rng.once_in(2) {
        true => text,
        false => rng.pick(&Spelling::ALL).of(&text, rng),
    }
}

/// Whether a text has a small letter.
pub fn has_small(text: &[u8]) -> bool {
    text.iter().any(u8::is_ascii_lowercase)
}
