//! The map of a session: a bit for each label record. It is made whole, and then handed out or compared.

use super::reader::Reader;
use brawnesk_tests::model::Refusal;

/// So many words hold 1,680 bits, and one more that stays 0.
const WORDS: usize = 28;

/// Writes the map to the front of the buffer and gives its length.
pub fn write(reader: &Reader, buffer: &mut [u8]) -> Result<usize, Refusal> {
    let length = length(reader);
    let front = buffer.get_mut(..length).ok_or(Refusal::Room)?;
    front.copy_from_slice(&right(reader)[..length]);
    Ok(length)
}

pub fn judge(reader: &Reader, map: &[u8]) -> Result<(), Refusal> {
    let length = length(reader);
    let holds = map.len() == length && map == &right(reader)[..length];
    holds.then_some(()).ok_or(Refusal::Map)
}

/// The bit of the record at a place.
pub fn bit(map: &[u8], place: usize) -> bool {
    map[place / 8] >> (place % 8) & 1 == 1
}

fn length(reader: &Reader) -> usize {
    reader.labels.count.div_ceil(8)
}

/// The map, with zeros after it. The bits of a block's labels are gathered in a word.
fn right(reader: &Reader) -> [u8; 8 * WORDS] {
    let (mut words, mut place) = ([0; WORDS], 0);
    for records in reader.labels.slices() {
        let mut bits = 0;
        for record in records.iter().rev() {
            let reads = reader.reads_all || reader.reads(record);
            bits = bits << 1 | u64::from(reads);
        }
        let bits = u128::from(bits) << (place % 64);
        words[place / 64] |= bits as u64;
        words[place / 64 + 1] |= (bits >> 64) as u64;
        place += records.len();
    }
    let mut map = [0; 8 * WORDS];
    for (part, word) in map.as_chunks_mut().0.iter_mut().zip(words) {
        *part = word.to_le_bytes();
    }
    map
}
