//! What holds of maps under every policy, asked of a program.

use super::{bit, other_policy, MapCall};
use crate::builder::{to_image, Variant};
use crate::calls::Call;
use crate::compare::{CallTally, Checked};
use crate::ffi::{Answer, SESSION};
use crate::pairs::Program;
use crate::row_calls::{Lent, RowCall};
use crate::tables::each_row_call;
use crate::vectors::{self, Asked};
use crate::walk::Walk;

/// The bytes of the longest map: 1,680 labels.
pub const LONGEST: usize = 210;

/// How many row calls of a seed are looked at, and how many calls on sessions come before maps are made.
const ROW_CALLS: usize = 24;
const SESSION_CALLS: usize = 24;

/// Whose maps are judged for a session and an image beside their own.
pub const OTHERS: [&str; 2] = ["another session's", "another image's"];

/// The session's map, or what refuses it.
pub fn own_map(
    program: Program,
    image: &Checked,
    session: &[u8; SESSION],
) -> Result<Vec<u8>, Answer> {
    let mut lent = lent(session, LONGEST);
    match program.maps(&MapCall::Make, image, &mut lent) {
        Answer::Done(length) => Ok(lent.buffer[..length as usize].to_vec()),
        refused => Err(refused),
    }
}

/// A session, no rows, and a buffer of so many bytes.
fn lent(session: &[u8; SESSION], room: usize) -> Lent {
    Lent {
        session: *session,
        table: Vec::new(),
        buffer: vec![0xa5; room],
    }
}

/// A read by the session's own map answers as the plain read does and leaves the same bytes, whatever image, session,
/// table, width and buffer are lent.
pub fn mapped_reads_are_plain_reads(
    program: Program,
    variant: Variant,
    seed: u64,
    tally: &mut CallTally,
) {
    each_row_call(variant, seed, ROW_CALLS, |step| {
        if !step.call.hands_out() {
            return;
        }
        let (width, image) = (step.call.width(), Checked::new(step.image));
        let map = own_map(program, &image, &step.lent.session).unwrap_or_default();
        let plain = RowCall::Read { width };
        let mapped = RowCall::ReadMapped { width, map };
        let [(one, after_one), (two, after_two)] = [&plain, &mapped].map(|call| {
            let mut lent = step.lent.clone();
            let answer = program.rows(call, &image, &mut lent);
            (answer, lent)
        });
        assert_eq!(one, two, "seed {seed}: {mapped:?}");
        assert_eq!(after_one.difference(&after_two), None, "seed {seed}");
        tally.count("read_mapped", mapped.outcome(two));
    });
}

/// A map has as few bytes as hold a bit for each label. Each bit is the verdict on the tag of its label, and
/// spare bits are zero.
pub fn bits_are_verdicts(program: Program, variant: Variant, seed: u64, tally: &mut CallTally) {
    let mut walk = Walk::new(variant, seed);
    let image = to_image(&walk.policy);
    let image = Checked::new(&image);
    walk.wander(&image.by_model, SESSION_CALLS);
    let labels = &walk.policy.labels;
    for session in walk.remembered() {
        let map = own_map(program, &image, session).expect("the session keeps its rules");
        assert_eq!(map.len(), labels.len().div_ceil(8), "seed {seed}");
        for (place, label) in labels.iter().enumerate() {
            let call = Call::MayRead(label.tag);
            let verdict = program.call(&call, &image, &mut session.clone());
            let is_set = bit(&map, place);
            assert_eq!(verdict, Answer::Done(is_set.into()), "seed {seed}");
            tally.add("bit", true, verdict);
        }
        let mut spare = labels.len()..8 * map.len();
        assert!(!spare.any(|place| bit(&map, place)), "seed {seed}");
    }
}

/// The maps of sessions under an image and under another are judged for all of them: each is accepted exactly if it
/// has the bytes of their own.
pub fn maps_of_others(program: Program, variant: Variant, seed: u64, tally: &mut CallTally) {
    let mut walk = Walk::new(variant, seed);
    let images = [
        to_image(&walk.policy),
        to_image(&other_policy(&walk.policy, &mut walk.rng)),
    ];
    let images = images.each_ref().map(|image| Checked::new(image));
    walk.wander(&images[0].by_model, SESSION_CALLS);
    let sessions = walk.remembered();
    let mut maps = Vec::new();
    for (whose, image) in OTHERS.into_iter().zip(&images) {
        let own = |session| own_map(program, image, session).expect("it keeps its rules");
        maps.extend(sessions.iter().map(|session| (whose, own(session))));
    }
    // The maps under the first image come first.
    for (session, (_, own)) in sessions.iter().zip(&maps) {
        for (whose, map) in &maps {
            let mut lent = lent(session, 0);
            let judged = program.maps(&MapCall::Judge(map.clone()), &images[0], &mut lent);
            assert_eq!(judged == Answer::Done(0), map == own, "seed {seed}");
            tally.add(whose, false, judged);
        }
    }
}

/// The vectors of read verdicts, each answered by a mapped read of one row. Gives how many there are.
pub fn vectors_of_reading(program: Program, variant: Variant) -> usize {
    let mut reads = 0;
    for section in vectors::sessions(variant) {
        let image = Checked::new(&section.image);
        for case in &section.cases {
            case.run(|call, session| match (call, program) {
                (Asked::Session(Call::MayRead(tag)), _) => {
                    reads += 1;
                    read_one(program, &image, session, *tag)
                }
                (_, Program::Library) => call.by_library(image.image, session),
                (_, Program::Model) => call.by_model(&image.by_model, session),
            });
        }
    }
    reads
}

/// How many rows are handed out of a table with one row.
fn read_one(program: Program, image: &Checked, session: &[u8; SESSION], tag: u32) -> Answer {
    let map = match own_map(program, image, session) {
        Ok(map) => map,
        Err(refused) => return refused,
    };
    let table = [&tag.to_le_bytes()[..], b"row"].concat();
    let mut lent = Lent {
        session: *session,
        buffer: vec![0; table.len()],
        table,
    };
    let call = RowCall::ReadMapped { width: 7, map };
    let answer = program.rows(&call, image, &mut lent);
    let is_handed_out = answer == Answer::Done(1);
    assert_eq!(lent.buffer == lent.table, is_handed_out, "tag {tag}");
    answer
}
