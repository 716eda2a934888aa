//! Changes the label at which a user's session opens: `write IMAGE USER LABEL [ROW]`. The twin of examples/write.c: the
//! image is taken apart into records, the user's default label becomes LABEL, and an image is written from the
//! records; with ROW the default row label becomes ROW then, and an image is written again. A refusal tells which
//! record breaks a rule. The image that is written last is checked, and what has changed is told: the verdicts of each
//! user's opened session on each tag, before and after. docs/IMAGE.md has the layouts of the records.

use brawnesk::{write, Image, Label, Refusal, TEXT};
use std::error::Error;
use std::process::ExitCode;

/// Room for any image, and for the records of any.
const ROOM: usize = 65_536;

type Done<T> = Result<T, Box<dyn Error>>;

/// The value of a call that has to be done.
fn done<T>(call: &str, answer: Result<T, Refusal>) -> Done<T> {
    answer.map_err(|refusal| format!("{call}: refused {}", refusal.number()).into())
}

/// The records of an image, and what it is of.
struct Records {
    edition: u8,
    profile: u8,
    components: Vec<u8>,
    labels: Vec<u8>,
    users: Vec<u8>,
}

impl Records {
    /// Only an accepted image is taken apart, so that its byte 4 is 1 or 2.
    fn of(image: Image) -> Done<Records> {
        let mut buffer = vec![0; ROOM];
        let components = done("component_records", image.component_records(&mut buffer))?.to_vec();
        let labels = done("label_records", image.label_records(&mut buffer))?.to_vec();
        let users = done("user_records", image.user_records(&mut buffer))?.to_vec();
        Ok(Records {
            edition: image.bytes()[4],
            profile: image.bytes()[12],
            components,
            labels,
            users,
        })
    }

    fn pick(&self, one: usize, two: usize) -> usize {
        match self.edition {
            2 => two,
            _ => one,
        }
    }

    fn tags(&self) -> impl Iterator<Item = u32> + '_ {
        let labels = self.labels.chunks(self.pick(24, 48));
        labels.map(|label| u32::from_le_bytes([label[0], label[1], label[2], label[3]]))
    }

    fn user_size(&self) -> usize {
        self.pick(128, 200)
    }

    /// A user record has the name's length in byte 0 and the name after it.
    fn names(&self) -> impl Iterator<Item = String> + '_ {
        let name = |user: &[u8]| String::from_utf8_lossy(&user[1..1 + usize::from(user[0])]).into();
        self.users.chunks(self.user_size()).map(name)
    }

    /// A user record has four levels, four sets of compartments and four of groups. The third of each is the default
    /// label's, the fourth the row label's. A label in bytes has its level in byte 4, its compartments from byte 8 on
    /// and its groups from byte 16 on.
    fn put_label(&mut self, place: usize, which: usize, Label(label): Label) {
        let (size, set) = (self.user_size(), self.pick(8, 32));
        let user = &mut self.users[place * size..][..size];
        user[32 + which] = label[4];
        user[40 + which * 8..][..8].copy_from_slice(&label[8..16]);
        user[72 + which * set..][..set].copy_from_slice(&label[16..16 + set]);
    }

    /// The image of the records. The refusal of a record tells its place in what was lent.
    fn write(&self) -> Result<Vec<u8>, Refusal> {
        let mut written = vec![0; ROOM];
        let answer = write(
            self.edition,
            self.profile,
            &self.components,
            &self.labels,
            &self.users,
            &mut written,
        );
        match answer {
            Ok(length) => println!("write: {length} bytes"),
            Err(refusal) => println!("write: {}", self.told(refusal)),
        }
        written.truncate(answer?);
        Ok(written)
    }

    /// A refusal with the record's place, and of a user with the name too.
    fn told(&self, refusal: Refusal) -> String {
        let Refusal::LentUser(place) = refusal else {
            return refusal.to_string();
        };
        let name = self.names().nth(place as usize).unwrap_or_default();
        let (number, words) = (refusal.number(), refusal.message());
        format!("refused {number} at record {place}, {name}: {words}")
    }
}

fn print(image: Image, label: Label) -> Done<String> {
    let mut text = [0; TEXT];
    Ok(done("print", image.print(label, &mut text))?.to_string())
}

/// At which labels a user's session opens under an image.
fn tell_session(image: Image, user: &str) -> Done<()> {
    let session = done("open", image.open(user))?;
    let (label, row) = (
        print(image, session.label())?,
        print(image, session.row_label())?,
    );
    println!("{user} opens at {label}, with row label {row}");
    Ok(())
}

/// The verdicts of a user's opened session on a tag, as the report writes them.
fn verdicts(image: Image, user: &str, tag: u32) -> Done<String> {
    let session = done("open", image.open(user))?;
    let read = done("may_read", session.may_read(image, tag))?.is_yes();
    let write = done("may_write", session.may_write(image, tag))?.is_yes();
    let letters = [if read { 'r' } else { '-' }, if write { 'w' } else { '-' }];
    Ok(letters.into_iter().collect())
}

/// A line for each user and tag; where the verdicts have changed, the new ones too.
fn report(records: &Records, old: Image, new: Image) -> Done<()> {
    for user in records.names() {
        for tag in records.tags() {
            let before = verdicts(old, &user, tag)?;
            let after = verdicts(new, &user, tag)?;
            match before == after {
                true => println!("{user} {tag} {before}"),
                false => println!("{user} {tag} {before}, now {after}"),
            }
        }
    }
    Ok(())
}

/// Whether an image was written in the end.
fn run(image: Image, user: &str, labels: &[String]) -> Done<bool> {
    let mut records = Records::of(image)?;
    let counts = [records.components.len() / 40, records.tags().count()];
    let users = records.names().count();
    println!(
        "records: components {}, labels {}, users {users}",
        counts[0], counts[1]
    );
    let place = usize::from(done("open", image.open(user))?.0[0]);
    tell_session(image, user)?;
    let mut answer = Ok(image.bytes().to_vec());
    for ((name, which), text) in [("default", 2), ("row", 3)].into_iter().zip(labels) {
        println!("{name} label {text}");
        records.put_label(place, which, done("parse", image.parse(text))?);
        answer = records.write();
    }
    let Ok(written) = answer else {
        return Ok(false);
    };
    let new = Image::new(&written);
    done("check", new.check())?;
    println!("check: accepted");
    tell_session(new, user)?;
    report(&records, image, new)?;
    Ok(true)
}

fn main() -> std::io::Result<ExitCode> {
    let arguments: Vec<String> = std::env::args().skip(1).collect();
    let ([path, user, _] | [path, user, _, _]) = &arguments[..] else {
        eprintln!("usage: write IMAGE USER LABEL [ROW]");
        return Ok(ExitCode::from(2));
    };
    let image = std::fs::read(path)?;
    match run(Image::new(&image), user, &arguments[2..]) {
        Ok(true) => return Ok(ExitCode::SUCCESS),
        Ok(false) => {}
        Err(error) => println!("{error}"),
    }
    Ok(ExitCode::FAILURE)
}
