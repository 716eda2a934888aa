//! Images that are laid out here, from the layouts of both editions.

use super::seal;

/// A kind of blocks: its byte, how many records a block holds, and the records.
pub type Kind = (u8, usize, Vec<Vec<u8>>);

/// An image of the header's bytes from 4 on, and of its components, labels and users.
pub fn image(header: &[u8], kinds: [Kind; 3]) -> Box<[u8]> {
    let mut blocks = vec![(80, 0, header.to_vec())];
    for (kind, capacity, records) in kinds {
        let records = records.chunks(capacity);
        blocks.extend(records.map(|records| (kind, records.len() as u8, records.concat())));
    }
    let block = |(place, (kind, count, payload)): (usize, (u8, u8, Vec<u8>))| {
        let mut block = [0; 512];
        block[..4].copy_from_slice(&[kind, count, place as u8, 0]);
        block[4..][..payload.len()].copy_from_slice(&payload);
        seal(&mut block);
        block
    };
    blocks.into_iter().enumerate().flat_map(block).collect()
}

/// A set of groups in as many bytes as edition 2 has for it.
fn wide(set: &[u8]) -> Vec<u8> {
    [set, &[0; 24]].concat()
}

/// The sample, or one like it with a block of each kind, in edition 2.
pub fn by_hand(old: &[u8]) -> Box<[u8]> {
    let records = |block: usize, size: usize, up: fn(&[u8]) -> Vec<u8>| {
        let block = &old[512 * block..][..512];
        let records = block[4..].chunks(size).take(block[1].into());
        records.map(up).collect()
    };
    let components = records(1, 40, |old| {
        let none = if old[34] == 255 { 255 } else { 0 };
        [&old[..34], &[old[34], none, 0, 0, 0, 0]].concat()
    });
    let labels = records(2, 24, |old| [&old[..16], &wide(&old[16..])].concat());
    let users = records(3, 128, |old| {
        let groups: Vec<u8> = old[72..104].chunks(8).flat_map(wide).collect();
        [&old[..72], &groups].concat()
    });
    // Edition, levels, compartments, no group count, users and labels; then the group count.
    let header = [&[2, old[5], old[6], 0], &old[8..12], &[0, 0, old[7], 0]].concat();
    image(
        &header,
        [(67, 12, components), (76, 10, labels), (85, 2, users)],
    )
}

/// An image of edition 1 with a level, and so many labels and users.
pub fn crowd(labels: u16, users: u16) -> Box<[u8]> {
    let (many_labels, many_users) = (labels.to_le_bytes(), users.to_le_bytes());
    let header = [&[1, 1, 0, 0], &many_users[..], &many_labels].concat();
    let mut level = vec![0; 40];
    (level[0], level[1], level[2], level[34]) = (1, 1, b'L', 255);
    let labels = (1..=labels).map(|tag| [&tag.to_le_bytes()[..], &[0; 22]].concat());
    let users = (0..users).map(|user| {
        let name = format!("\x03U{user:02}");
        [name.as_bytes(), &[0; 124]].concat()
    });
    image(
        &header,
        [
            (67, 12, vec![level]),
            (76, 21, labels.collect()),
            (85, 3, users.collect()),
        ],
    )
}
