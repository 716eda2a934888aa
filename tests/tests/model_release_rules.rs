//! The rules of the release profile in the model: what more groups do to rows and to sessions, and wrong rules,
//! which the calls and the pairs for comparing find.

use brawnesk_tests::builder::{to_image, Label, Policy, Set, User, Variant};
use brawnesk_tests::calls::{Call, PairCall};
use brawnesk_tests::compare::CallTally;
use brawnesk_tests::ffi::{Answer, SESSION};
use brawnesk_tests::in_each_release;
use brawnesk_tests::model::{accepted, may_read, may_read_at_maximum, may_write, open};
use brawnesk_tests::model::{Image, Places, Session};
use brawnesk_tests::pairs::each_pair;
use brawnesk_tests::rng::Rng;
use brawnesk_tests::walk::{each_call, is_ruled, label_at, policy, LABEL_AT};

in_each_release! {
    a_group_more_never_hides_a_row
    a_group_more_in_a_session_never_shows_more
    no_session_reads_more_than_the_maximum
    wrong_rules_of_verdicts_are_found
    wrong_rules_of_dominance_are_found
}

const SEEDS: u64 = 500;

/// How many users and label records of a policy are asked.
const USERS: usize = 6;
const RECORDS: usize = 40;

/// The verdicts of a session that is accepted on a tag.
fn verdicts(image: &Image, session: &Session, tag: u32) -> [bool; 2] {
    [may_read, may_write].map(|ask| ask(image, session, tag).expect("the session is accepted"))
}

/// The sessions of a policy's users as they open, and with any other groups that they may have: all that the user
/// reads and some others, and a row label with all groups that there are.
fn sessions(policy: &Policy, image: &Image, rng: &mut Rng) -> Vec<Session> {
    let mut sessions = Vec::new();
    for user in policy.users.iter().take(USERS) {
        let opened = open(image, user.name.as_bytes()).expect("a user");
        let mut changed = opened.clone();
        let groups = user.groups.read | rng.subset(policy.all_groups());
        changed.label.groups = groups.places().collect();
        changed.row.groups = policy.all_groups().places().collect();
        sessions.extend([opened, changed]);
    }
    sessions
}

/// Counts what a verdict was and what it is then.
fn count(seen: &mut CallTally, [before, after]: [[bool; 2]; 2]) {
    for (call, at) in [("read", 0), ("write", 1)] {
        let outcome = match (before[at], after[at]) {
            (true, true) => "kept",
            (false, true) => "won",
            (true, false) => "lost",
            (false, false) => "never",
        };
        seen.count(call, outcome);
    }
}

/// Every label record gets a group more: who read or wrote a row still does, and some win it.
fn a_group_more_never_hides_a_row(variant: Variant) {
    let mut seen = CallTally::default();
    for seed in 0..SEEDS {
        let mut rng = Rng::new(seed);
        let policy = policy(variant, &mut rng);
        let mut more = policy.clone();
        for label in &mut more.labels {
            let others = policy.all_groups() & !label.groups;
            label.groups |= rng.place_in(others).map_or(Set::NONE, Set::of);
        }
        let images = [to_image(&policy), to_image(&more)];
        let [before, after] = images
            .each_ref()
            .map(|it| accepted(it).expect("well-formed"));
        for session in sessions(&policy, &before, &mut rng) {
            for label in policy.labels.iter().take(RECORDS) {
                let both = [&before, &after].map(|it| verdicts(it, &session, label.tag));
                count(&mut seen, both);
            }
        }
    }
    println!("{seen:?}");
    for call in ["read", "write"] {
        seen.assert_least(call, &["kept", "won", "never"], 500);
        assert_eq!(seen.times(call, "lost"), 0, "{call}");
    }
}

/// A session gets a group more: it reads and writes nothing that it didn't, and loses rows.
fn a_group_more_in_a_session_never_shows_more(variant: Variant) {
    let mut seen = CallTally::default();
    for seed in 0..SEEDS {
        let mut rng = Rng::new(seed);
        let policy = policy(variant, &mut rng);
        let image = to_image(&policy);
        let image = accepted(&image).expect("well-formed");
        for session in sessions(&policy, &image, &mut rng) {
            let has = |place: &usize| session.label.groups.contains(*place);
            let own: Set = (0..policy.groups.len()).filter(has).collect();
            let Some(group) = rng.place_in(policy.all_groups() & !own) else {
                continue;
            };
            let mut more = session.clone();
            more.label.groups = more.label.groups | Places::from([group]);
            more.row.groups = policy.all_groups().places().collect();
            for label in policy.labels.iter().take(RECORDS) {
                let both = [&session, &more].map(|it| verdicts(&image, it, label.tag));
                count(&mut seen, both);
            }
        }
    }
    println!("{seen:?}");
    for call in ["read", "write"] {
        seen.assert_least(call, &["kept", "lost", "never"], 500);
        assert_eq!(seen.times(call, "won"), 0, "{call}");
    }
}

/// Whatever a session reads, its user reads at the maximum read label; but not the other way round.
fn no_session_reads_more_than_the_maximum(variant: Variant) {
    let mut seen = CallTally::default();
    for seed in 0..SEEDS {
        each_call(variant, seed, 100, |step| {
            let (Call::MayRead(tag), Answer::Done(answer)) = (&step.call, step.answer) else {
                return;
            };
            let image = accepted(step.image).expect("the call is done");
            let at_maximum = may_read_at_maximum(&image, step.lent[0].into(), *tag);
            let outcome = match (answer == 1, at_maximum) {
                (true, true) => "both",
                (false, true) => "only at the maximum",
                (false, false) => "neither",
                (true, false) => "only in the session",
            };
            seen.count("read", outcome);
        });
    }
    println!("{seen:?}");
    let outcomes = ["both", "only at the maximum", "neither"];
    seen.assert_least("read", &outcomes, 200);
    assert_eq!(seen.times("read", "only in the session"), 0);
}

/// Whether a session of a user may do something with a row.
type Rule = fn(&User, &Label, &Label) -> bool;

fn reads(_: &User, session: &Label, row: &Label) -> bool {
    by_level_and_compartments(session, row) && session.groups.is_in(row.groups)
}

fn by_level_and_compartments(session: &Label, row: &Label) -> bool {
    row.level <= session.level && row.compartments.is_in(session.compartments)
}

fn has_minimum(user: &User, row: &Label) -> bool {
    user.levels.minimum <= row.level
}

fn has_compartments(user: &User, session: &Label, row: &Label) -> bool {
    let write = session.compartments & user.compartments.write;
    row.compartments.is_in(write)
}

fn writes(user: &User, session: &Label, row: &Label) -> bool {
    reads(user, session, row) && has_minimum(user, row) && has_compartments(user, session, row)
}

/// Rules of reading that a program might go by and that are wrong.
const WRONG_READING: [(&str, Rule); 7] = [
    ("one shared group is enough", |_, session, row| {
        let shared = row.groups.is_empty() || session.groups.meets(row.groups);
        by_level_and_compartments(session, row) && shared
    }),
    ("the row's groups among the session's", |_, session, row| {
        by_level_and_compartments(session, row) && row.groups.is_in(session.groups)
    }),
    ("a row without groups goes to all", |user, session, row| {
        let to_all = by_level_and_compartments(session, row) && row.groups.is_empty();
        to_all || reads(user, session, row)
    }),
    (
        "a session without groups reads none",
        |user, session, row| reads(user, session, row) && !session.groups.is_empty(),
    ),
    ("the same groups", |_, session, row| {
        by_level_and_compartments(session, row) && session.groups == row.groups
    }),
    (
        "the user's read groups among the row's",
        |user, session, row| {
            by_level_and_compartments(session, row) && user.groups.read.is_in(row.groups)
        },
    ),
    ("no group test", |_, session, row| {
        by_level_and_compartments(session, row)
    }),
];

/// The same of writing.
const WRONG_WRITING: [(&str, Rule); 6] = [
    ("no minimum", |user, session, row| {
        reads(user, session, row) && has_compartments(user, session, row)
    }),
    ("no write compartments", |user, session, row| {
        reads(user, session, row) && has_minimum(user, row)
    }),
    (
        "write compartments only without groups",
        |user, session, row| {
            let by_groups = !row.groups.is_empty() || has_compartments(user, session, row);
            reads(user, session, row) && has_minimum(user, row) && by_groups
        },
    ),
    ("no group test", |user, session, row| {
        let by_level = row.level <= session.level && has_minimum(user, row);
        by_level && has_compartments(user, session, row)
    }),
    ("a write group is enough", |user, session, row| {
        let by_level = row.level <= session.level && has_minimum(user, row);
        let by_group = row.groups.is_empty() || row.groups.meets(user.groups.write);
        by_level && by_group && has_compartments(user, session, row)
    }),
    ("READ is a read test", |user, session, row| {
        let by_read = user.privileges & 1 != 0 && has_minimum(user, row);
        writes(user, session, row) || by_read && has_compartments(user, session, row)
    }),
];

/// Each wrong rule gives another verdict for many of the calls for comparing, and the right one for none.
fn wrong_rules_of_verdicts_are_found(variant: Variant) {
    let mut found = [0; WRONG_READING.len() + WRONG_WRITING.len()];
    for seed in 0..SEEDS {
        each_call(variant, seed, 200, |step| {
            let (Call::MayRead(tag) | Call::MayWrite(tag)) = &step.call else {
                return;
            };
            let is_write = matches!(step.call, Call::MayWrite(_));
            let is_asked = |bits: u8| is_ruled(bits) || is_write && bits & 2 == 0;
            let row = step.policy.labels.iter().find(|it| it.tag == *tag);
            let (Some(row), Answer::Done(answer)) = (row, step.answer) else {
                return;
            };
            if !step.privileges.is_some_and(is_asked) {
                return;
            }
            let (right, wrong, from): (Rule, &[(&str, Rule)], usize) = match is_write {
                true => (writes, &WRONG_WRITING, WRONG_READING.len()),
                false => (reads, &WRONG_READING, 0),
            };
            let told = |rule: Rule| u64::from(by(rule, &step.lent, step.policy, row));
            assert_eq!(told(right), answer, "seed {seed}: {:?}", step.call);
            for ((_, rule), found) in wrong.iter().zip(&mut found[from..]) {
                *found += usize::from(told(*rule) != answer);
            }
        });
    }
    let rules = WRONG_READING.iter().chain(&WRONG_WRITING);
    let found: Vec<_> = rules.map(|(name, _)| name).zip(found).collect();
    println!("{found:?}");
    assert!(found.iter().all(|(_, times)| *times >= 50), "{found:?}");
}

fn by(rule: Rule, session: &[u8; SESSION], policy: &Policy, row: &Label) -> bool {
    let user = &policy.users[usize::from(session[0])];
    rule(user, &label_at(session, LABEL_AT), row)
}

/// The same for dominance, with the rules of reading. One of them looks at a user.
fn wrong_rules_of_dominance_are_found(variant: Variant) {
    let mut found = [0; WRONG_READING.len()];
    for seed in 0..SEEDS {
        each_pair(variant, seed, 40, |step| {
            let Some(user) = step.policy.users.first() else {
                return;
            };
            let (Answer::Done(answer), PairCall::Dominates) = (step.answer, &step.call) else {
                return;
            };
            let [one, two] = step.labels;
            let told = |rule: Rule| u64::from(rule(user, one, two));
            assert_eq!(told(reads), answer, "seed {seed}: {one:?}, {two:?}");
            for ((_, rule), found) in WRONG_READING.iter().zip(&mut found) {
                *found += usize::from(told(*rule) != answer);
            }
        });
    }
    let found: Vec<_> = WRONG_READING.iter().map(|it| it.0).zip(found).collect();
    println!("{found:?}");
    assert!(found.iter().all(|(_, times)| *times >= 50), "{found:?}");
}
