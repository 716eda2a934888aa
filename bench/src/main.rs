//! Measures calls on the largest image: the library's (ours) and a plain Rust version's.
//!
//! - `bench calls`: a line for each call: its name, its function, `image` where it is lent one (else
//!   `-`), and its limit in percent over the check (else `-`).
//! - `bench row-calls`: a line for each row call: its name, its function, how many rows it is lent, its
//!   limit in percent of the plain version (else `-`).
//! - `bench edition-2`: a line for each call on the largest images of edition 2 and for the move up: its
//!   name, which is the call's, @ and the image's; its function, its limit in percent over the check of
//!   that image (else `-`), and the versions that can be run.
//! - `bench maps`: a line for each call that makes or judges a map, and for those that they are held beside: its
//!   name, with @, the image's, + and whose session it is; its function, how many labels there are, its limit
//!   in instructions a label, the call that it is held beside (else `-` for both), and the versions.
//! - `bench mapped-reads`: the same of mapped reads, with how many rows there are and limits in percent.
//! - `bench writing`: the same of images written from records and taken apart, with how many blocks there are and
//!   limits in percent of the check of the same image.
//! - `bench worst`: the same of calls on the images whose check costs much, without limits.
//! - `bench growth`: a line for each count of rows, labels, users, groups, and groups of edition 2 in one chain: the
//!   thing, the count, the calls check, may_read and read by name, and the versions.
//! - `bench versions`: the versions that can be run of the other calls, `ours` and `plain`.
//! - `bench function CALL`: the name of its function; `bench rows CALL`: how many rows it is lent.
//! - `bench sql CALL`: the labels, the session and the table of a read for psql; see `postgres.sh`.
//! - `bench scene`: which users, tags and texts the calls are lent.
//! - `bench VERSION CALL N`: N calls, to be counted from outside; see `run.sh`.
//! - `bench VERSION CALL time`: nanoseconds of one call, the median of several rounds.
//! - `bench VERSION CALL stack`: bytes of stack that one call uses.
//! - `bench VERSION CALL answer`: the answer of a call that is done.
//!
//! Before it is measured, a call is made by all versions and their answers are compared.

mod asked;
mod by_model;
mod calls;
mod edition_2;
mod growth;
mod held;
mod images;
mod maps;
mod move_up;
mod plain;
mod row_calls;
mod rows;
mod scene;
mod sql;
mod stack;
mod who;
mod worst;
mod writing;

use asked::Asked;
use brawnesk_tests::ffi::Answer;
use calls::{Call, Version, CALLS};
use held::Line;
use images::Of;
use row_calls::ROW_CALLS;
use rows::{Rows, NO_ROWS};
use scene::{Out, Scene};
use std::hint::black_box;
use std::time::Instant;
use who::On;

const FIRST: Asked = Asked {
    call: &CALLS[0],
    on: None,
};

/// What is measured: a version of a call, and the answer that it has to give.
struct Measured<'a> {
    version: Version,
    scene: &'a Scene,
    answer: Answer,
}

/// All that is counted. It bears a plain name so that callgrind can be told to collect inside it.
#[no_mangle]
#[inline(never)]
fn brawnesk_bench_calls(measured: &Measured, out: &mut Out, times: u64) -> bool {
    let version = black_box(measured.version);
    (0..times).all(|_| version(black_box(measured.scene), out) == measured.answer)
}

/// The median of rounds that last some milliseconds each, or one call. What is lent stays in the caches
/// as far as they hold it.
fn time(measured: &Measured) -> u64 {
    let mut out = Out::new(measured.scene);
    let mut round = |times: u64| {
        let start = Instant::now();
        assert!(brawnesk_bench_calls(measured, &mut out, times));
        start.elapsed().as_nanos() as u64 / times
    };
    round(1);
    let times = (5_000_000 / round(1).max(10)).max(1);
    let mut rounds: Vec<u64> = (0..31).map(|_| round(times)).collect();
    rounds.sort();
    rounds[rounds.len() / 2]
}

fn limit(call: &Call) -> String {
    call.limit
        .map_or("-".to_string(), |limit| limit.to_string())
}

fn list_calls() {
    for call in CALLS {
        let image = if call.is_lent_an_image() {
            "image"
        } else {
            "-"
        };
        println!("{} {} {image} {}", call.name, call.function, limit(call));
    }
}

fn list_row_calls() {
    for call in ROW_CALLS {
        let rows = call.shape.map_or(0, |shape| shape.rows);
        println!("{} {} {rows} {}", call.name, call.function, limit(call));
    }
}

/// A row call's limit is told by the plain version, so here it has none.
fn list_edition_2() {
    for name in edition_2::names() {
        let asked = Asked::named(&name).expect("its name is known");
        let limit = match asked.call.shape {
            Some(_) => "-".to_string(),
            None => limit(asked.call),
        };
        println!(
            "{name} {} {limit} {}",
            asked.call.function,
            asked.versions()
        );
    }
}

/// A limit is told only beside another call, and a count of what the call is divided by.
fn list_held(lines: Vec<Line>, count: fn(&Asked) -> usize, limit: fn(&Call) -> String) {
    for line in lines {
        let (name, call, versions) = (&line.name, line.asked.call, line.asked.versions());
        let limit = line.beside.as_ref().map(|_| limit(call));
        let [limit, beside] = [limit, line.beside].map(|told| told.unwrap_or("-".to_string()));
        let count = count(&line.asked);
        println!(
            "{name} {} {count} {limit} {beside} {versions}",
            call.function
        );
    }
}

fn list_growth() {
    for step in growth::steps() {
        let (calls, versions) = (step.calls.join(" "), step.versions());
        println!("{} {} {calls} {versions}", step.thing, step.count);
    }
}

fn show_scenes() {
    show_scene(&Scene::new(On::reader(Of::Full), &NO_ROWS));
    for call in ROW_CALLS {
        show_rows(call.name, &Asked { call, on: None }.scene().rows);
    }
    let others = Of::NAMED.iter().filter(|(_, of)| *of != Of::Full);
    for &(name, of) in others {
        println!("\n{name}:");
        show_scene(&Scene::new(On::reader(of), &NO_ROWS));
    }
    for name in edition_2::names() {
        let asked = Asked::named(&name).expect("its name is known");
        if asked.call.shape.is_some() {
            show_rows(&name, &asked.scene().rows);
        }
    }
    println!();
    for line in maps::all().filter(|line| line.beside.is_some()) {
        show_rows(&line.name, &line.asked.scene().rows);
    }
}

fn show_scene(scene: &Scene) {
    let shown = |bytes: &[u8]| bytes.escape_ascii().to_string();
    println!("last user: {}", shown(&scene.last_user));
    println!(
        "last tag: {}, unknown tag: {}",
        scene.last_tag, scene.unknown_tag
    );
    println!("session: of the user at place {}", scene.session[0]);
    println!("text, {} bytes: {}", scene.text.len(), shown(&scene.text));
    let length = scene.widest_text.len();
    println!(
        "widest: the user at place {}, {length} bytes",
        scene.widest[0]
    );
    println!("whole: {} bytes", scene.whole_text.len());
}

fn show_rows(name: &str, rows: &Rows) {
    let (known, tags) = rows.tags;
    let (count, width) = (rows.table.len() / rows.width, rows.width);
    println!(
        "{name}: the user at place {} reads {known} of {tags} tags; {count} rows of {width} bytes, {} \
         readable; a buffer of {} bytes",
        rows.session[0], rows.readable, rows.room
    );
}

fn asked(call: &str) -> Asked {
    Asked::named(call).expect("one of the calls that bench lists")
}

fn measure(version: &str, call: &str, task: &str) {
    let asked = asked(call);
    let version = asked.version(version);
    let scene = asked.scene();
    let measured = Measured {
        version: version.expect("one of the call's versions; ours needs libabi.a"),
        scene: &scene,
        answer: asked.agreed(&scene),
    };
    match task {
        "time" => println!("{}", time(&measured)),
        "stack" => println!("{}", stack::used(measured.version, &scene)),
        "answer" => match measured.answer {
            Answer::Done(value) => println!("{value}"),
            Answer::Refused { number, .. } => panic!("refused {number}"),
        },
        times => {
            let times = times
                .parse()
                .expect("a number of calls, `time`, `stack` or `answer`");
            let mut out = Out::new(&scene);
            assert!(brawnesk_bench_calls(&measured, &mut out, times));
        }
    }
}

fn main() {
    let arguments: Vec<String> = std::env::args().skip(1).collect();
    let arguments: Vec<&str> = arguments.iter().map(String::as_str).collect();
    match arguments[..] {
        ["calls"] => list_calls(),
        ["row-calls"] => list_row_calls(),
        ["edition-2"] => list_edition_2(),
        ["maps"] => list_held(maps::made_and_judged(), maps::labels, limit),
        ["mapped-reads"] => list_held(maps::reads(), maps::rows, limit),
        ["writing"] => list_held(writing::all(), writing::blocks, limit),
        ["worst"] => list_held(worst::all(), writing::blocks, |_| "-".to_string()),
        ["growth"] => list_growth(),
        ["versions"] => println!("{}", FIRST.versions()),
        ["function", call] => println!("{}", asked(call).call.function),
        ["sql", call] => sql::show(&asked(call)),
        ["rows", call] => println!("{}", maps::rows(&asked(call))),
        ["scene"] => show_scenes(),
        [version, call, task] => measure(version, call, task),
        _ => {
            let lists =
                "calls|row-calls|edition-2|maps|mapped-reads|writing|worst|growth|versions|scene";
            let told = "bench function|rows|sql CALL";
            panic!("usage: bench {lists} | {told} | bench VERSION CALL N|time|stack|answer")
        }
    }
}
