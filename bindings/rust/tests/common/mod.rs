//! The sample co-operative of document 01. Each test has its own copy on the heap, of just its
//! length, so that valgrind sees a read past its end.

#[allow(dead_code)]
pub mod images;
#[allow(dead_code)]
pub mod thirds;

use brawnesk::{Image, Refusal, Session};

fn file(name: &str) -> Box<[u8]> {
    let path = format!("{}/../../sample/{name}", env!("CARGO_MANIFEST_DIR"));
    std::fs::read(path).expect("a sample").into_boxed_slice()
}

/// The sample image.
pub fn sample() -> Box<[u8]> {
    file("cooperative.img")
}

/// The sample image with another byte, and the check of its block right again.
#[allow(dead_code)]
pub fn sample_with(offset: usize, byte: u8) -> Box<[u8]> {
    let mut image = sample();
    image[offset] = byte;
    seal(&mut image[offset / 512 * 512..][..512]);
    image
}

/// Writes a block's check.
#[allow(dead_code)]
pub fn seal(block: &mut [u8]) {
    let (mut a, mut b) = (0, 0);
    for &byte in &block[..510] {
        a = (a + u32::from(byte)) % 255;
        b = (b + a) % 255;
    }
    block[510..].copy_from_slice(&[a as u8, b as u8]);
}

/// Images with a fault that neither 1 nor 2 tells, and their refusals. Blocks 1, 2 and 3 of the sample
/// have component, label and user records of 40, 24 and 128 bytes, from byte 4 on.
#[allow(dead_code)]
pub fn faulty() -> Vec<(Box<[u8]>, Refusal)> {
    let component = |record| Refusal::ComponentRecord { block: 1, record };
    let label = |record| Refusal::LabelRecord { block: 2, record };
    let user = Refusal::UserRecord {
        block: 3,
        record: 0,
    };
    let (components, labels, users) = (512 + 4, 1_024 + 4, 1_536 + 4);
    let changes = [
        // An edition that there is not, and edition 2, where byte 7 is zero; a block's kind, record count
        // and last byte before its check.
        (4, 3, Refusal::ImageLayout),
        (4, 2, Refusal::ImageLayout),
        (512, 76, Refusal::ImageLayout),
        (1_025, 4, Refusal::ImageLayout),
        (1_536 + 509, 1, Refusal::ImageLayout),
        // An unused byte, and a parent that is no group.
        (components + 35, 1, component(0)),
        (components + 8 * 40 + 34, 4, component(8)),
        // A tag that does not rise, and a level that there is not.
        (labels + 24, 9, label(1)),
        (labels + 2 * 24 + 4, 3, label(2)),
        // Bit 128 of the privileges, and write groups that do not lie below the read groups.
        (users + 31, 128, user),
        (users + 80, 8, user),
        // DOCK is its own parent. NORTH is, and so DOCK's parents never end either.
        (components + 7 * 40 + 34, 2, Refusal::ParentRing(2)),
        (components + 6 * 40 + 34, 1, Refusal::ParentRing(1)),
    ];
    let image = |(offset, byte, refusal)| (sample_with(offset, byte), refusal);
    changes.into_iter().map(image).collect()
}

/// The sample of the release profile: a co-operative that marks its rows with the partner stores that they may
/// go to.
#[allow(dead_code)]
pub fn partners() -> Box<[u8]> {
    file("partners.img")
}

/// Its table: rows of 16 bytes.
#[allow(dead_code)]
pub fn partners_table() -> Box<[u8]> {
    file("partners.bin")
}

/// The table of the report loop.
#[allow(dead_code)]
pub fn table() -> Box<[u8]> {
    file("table.bin")
}

/// MARA's session as it is opened.
#[allow(dead_code)]
pub fn mara(image: Image) -> Session {
    image.open("MARA").expect("the sample has MARA")
}
