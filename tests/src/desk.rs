//! Questions about the sample of the release profile: the image of the co-operative with partner stores, and the
//! program that is asked.

use crate::builder::{partners, partners_table, to_image, Edition, Policy};
use crate::calls::Call;
use crate::compare::Checked;
use crate::ffi::{Answer, SESSION};
use crate::pairs::Program;
use crate::row_calls::{Lent, RowCall};

/// For functions that are told a desk: a test with the model, in the module `by_model`, and one with the library,
/// in `by_library`.
#[macro_export]
macro_rules! at_the_desk {
    ($($name:ident)*) => {
        mod by_model {
            $(
                #[test]
                fn $name() {
                    $crate::desk::in_both_editions($crate::pairs::Program::Model, super::$name);
                }
            )*
        }

        mod by_library {
            $(
                #[test]
                fn $name() {
                    $crate::desk::in_both_editions($crate::pairs::Program::Library, super::$name);
                }
            )*
        }
    };
}

/// With the image of each edition.
pub fn in_both_editions(program: Program, check: fn(&Desk)) {
    for edition in Edition::ALL {
        check(&Desk::new(program, partners().in_edition(edition)));
    }
}

/// The program that is asked, and the image that it is lent.
pub struct Desk {
    pub program: Program,
    pub policy: Policy,
    pub image: Vec<u8>,
}

pub const DONE: Answer = Answer::Done(0);

pub const fn refused(number: u32) -> Answer {
    Answer::Refused { number, place: 0 }
}

/// The width of the rows of the table.
pub const WIDTH: usize = 16;

impl Desk {
    pub fn new(program: Program, policy: Policy) -> Desk {
        Desk {
            program,
            image: to_image(&policy),
            policy,
        }
    }

    pub fn call(&self, call: &Call, session: &mut [u8; SESSION]) -> Answer {
        self.program.call(call, &Checked::new(&self.image), session)
    }

    pub fn open(&self, name: &str) -> [u8; SESSION] {
        let mut session = [0xa5; SESSION];
        let answer = self.call(&Call::Open(name.into()), &mut session);
        assert_eq!(answer, DONE, "{name}");
        session
    }

    pub fn label(&self, session: &mut [u8; SESSION], text: &str) -> Answer {
        self.call(&Call::SetLabel(text.into()), session)
    }

    pub fn row(&self, session: &mut [u8; SESSION], text: &str) -> Answer {
        self.call(&Call::SetRowLabel(text.into()), session)
    }

    /// The known tags with a yes.
    pub fn tags(&self, session: &[u8; SESSION], call: fn(u32) -> Call) -> Vec<u32> {
        let known = self.policy.labels.iter().map(|label| label.tag);
        let is_yes = |tag: &u32| self.call(&call(*tag), &mut session.clone()) == Answer::Done(1);
        known.filter(is_yes).collect()
    }

    pub fn reads(&self, session: &[u8; SESSION]) -> Vec<u32> {
        self.tags(session, Call::MayRead)
    }

    pub fn writes(&self, session: &[u8; SESSION]) -> Vec<u32> {
        self.tags(session, Call::MayWrite)
    }

    pub fn rows(&self, call: &RowCall, lent: &mut Lent) -> Answer {
        self.program.rows(call, &Checked::new(&self.image), lent)
    }

    /// Asks for each new session label, or row label, of a user's opened session.
    pub fn expect(&self, name: &str, set: fn(Vec<u8>) -> Call, wanted: &[(&str, Answer)]) {
        for (text, answer) in wanted {
            let call = set(text.as_bytes().to_vec());
            let given = self.call(&call, &mut self.open(name));
            assert_eq!(given, *answer, "{name}: {call:?}");
        }
    }

    /// A user's session, the sample's table, and a buffer as long.
    pub fn lent(&self, name: &str) -> Lent {
        let table = partners_table();
        Lent {
            session: self.open(name),
            buffer: vec![0xa5; table.len()],
            table,
        }
    }
}
