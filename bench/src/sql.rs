//! The table, the labels and the session of a read, as lines for psql that fill the tables of postgres.sh.

use crate::asked::Asked;
use crate::rows::Rows;
use crate::who::On;
use brawnesk_tests::builder::{Policy, Set, User};

/// Of a read on an image of edition 1, whose sets of groups are one word.
pub fn show(asked: &Asked) {
    let shape = asked.call.shape.expect("a row call");
    let on: On = asked.on.unwrap_or(shape.on);
    let policy = on.policy();
    show_labels(&policy);
    show_session(&policy, on.who.user(&policy));
    show_rows(&asked.scene().rows);
}

/// A bigint with the bits of a set's first word.
fn bits(set: Set) -> i64 {
    set.words()[0] as i64
}

fn show_labels(policy: &Policy) {
    println!("copy labels (tag, level, compartments, groups) from stdin;");
    for label in &policy.labels {
        let [compartments, groups] = [label.compartments, label.groups].map(bits);
        println!("{}\t{}\t{compartments}\t{groups}", label.tag, label.level);
    }
    println!("\\.");
}

/// As it is opened, with what lies below its groups in their place.
fn show_session(policy: &Policy, user: &User) {
    let compartments = bits(user.compartments.default);
    let groups = bits(policy.below(user.groups.default));
    let (level, compaccess) = (user.levels.default, user.holds_compaccess());
    println!("insert into sessions (name, level, compartments, groups, compaccess)");
    println!("values ('reader', {level}, {compartments}, {groups}, {compaccess});");
}

/// The tag, and the bytes after it in hexadecimal digits.
fn show_rows(rows: &Rows) {
    println!("copy entries (tag, payload) from stdin;");
    for row in rows.table.chunks(rows.width) {
        let (tag, payload) = row.split_at(4);
        let tag = u32::from_le_bytes(tag.try_into().expect("four bytes"));
        let digits: String = payload.iter().map(|byte| format!("{byte:02x}")).collect();
        println!("{tag}\t\\\\x{digits}");
    }
    println!("\\.");
}
