//! The tables of docs/IMAGE.md that show bytes: the sample in both editions, and the worked sum of its header. Each is
//! compared with the bytes themselves, so that the page is right as long as this test passes.

use brawnesk_tests::builder::{sample, to_image, Edition};

const PAGE: &str = include_str!("../../docs/IMAGE.md");
const SAMPLE: &[u8] = include_bytes!("../../sample/cooperative.img");

/// The cells of the table rows under a heading, up to the next heading.
fn rows(heading: &str) -> Vec<Vec<&'static str>> {
    let mut lines = PAGE.lines().skip_while(|line| *line != heading);
    assert_eq!(lines.next(), Some(heading));
    let section = lines.take_while(|line| !line.starts_with('#'));
    let rows = section.filter_map(|line| line.strip_prefix('|')?.strip_suffix('|'));
    rows.map(|row| row.split('|').map(str::trim).collect())
        .collect()
}

/// What stands between backquotes, if the cell has nothing else.
fn quoted(cell: &str) -> Option<&str> {
    cell.strip_prefix('`')?.strip_suffix('`')
}

fn hexadecimal(text: &str) -> usize {
    usize::from_str_radix(text, 16).unwrap_or_else(|_| panic!("{text} is no hexadecimal"))
}

/// The offset, the bytes and the words of each row of a dump.
fn dump(heading: &str) -> Vec<(usize, Vec<u8>, &'static str)> {
    let shown = rows(heading).into_iter().filter_map(|cells| {
        let [offset, bytes, words] = cells[..] else {
            panic!("{cells:?} under {heading}");
        };
        let (offset, bytes) = (quoted(offset)?, quoted(bytes)?);
        let bytes = bytes.split(' ').map(|byte| hexadecimal(byte) as u8);
        Some((hexadecimal(offset), bytes.collect(), words))
    });
    shown.collect()
}

/// The rows rise and do not overlap, each has words, and with zeros between them they are the image.
fn assert_shown(heading: &str, image: &[u8]) {
    let rows = dump(heading);
    assert!(rows.len() >= 40, "{} rows under {heading}", rows.len());
    let mut shown = Vec::new();
    for (offset, bytes, words) in rows {
        assert!(offset >= shown.len(), "{offset:03x} under {heading}");
        assert!(!words.is_empty(), "{offset:03x} under {heading}");
        shown.resize(offset, 0);
        shown.extend(bytes);
    }
    assert!(shown == image, "other bytes than under {heading}");
}

#[test]
fn the_dump_is_the_sample() {
    assert_shown("## The sample in hexadecimal", SAMPLE);
    assert_eq!(SAMPLE, to_image(&sample()));
}

#[test]
fn the_second_dump_is_the_sample_in_edition_2() {
    let image = to_image(&sample().in_edition(Edition::Two));
    assert_shown("## The sample in edition 2", &image);
}

/// The numbers of a row: one byte or some equal ones, `11..509`, their value, and both sums after them.
fn worked(cells: &[&str]) -> Option<[usize; 5]> {
    let [bytes, value, a, b] = cells[..] else {
        panic!("{cells:?}");
    };
    let (first, last) = bytes.split_once("..").unwrap_or((bytes, bytes));
    let number = |text: &str| text.parse().ok();
    Some([
        number(first)?,
        number(last)?,
        number(value)?,
        number(a)?,
        number(b)?,
    ])
}

#[test]
fn the_sums_are_those_of_the_header() {
    let (mut a, mut b, mut next) = (0, 0, 0);
    for cells in rows("### The check") {
        let Some([first, last, value, first_sum, second_sum]) = worked(&cells) else {
            continue;
        };
        assert_eq!(first, next);
        for byte in first..=last {
            assert_eq!(usize::from(SAMPLE[byte]), value, "byte {byte}");
            a = (a + value) % 255;
            b = (b + a) % 255;
        }
        assert_eq!([a, b], [first_sum, second_sum], "after byte {last}");
        next = last + 1;
    }
    assert_eq!(next, 510);
    assert_eq!(SAMPLE[510..512], [a as u8, b as u8]);
}
