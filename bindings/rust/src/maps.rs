//! Maps: one bit for each label record of an image, which tells whether a session may read that label.

use crate::raw;
use crate::{decode, Image, Refusal, Session};
use core::slice::ChunksExact;

/// The bytes of the longest map, that of [`LABELS_1`](crate::LABELS_1) labels.
///
/// ```
/// # use brawnesk::{Image, MAP};
/// # let bytes = std::fs::read("../../sample/cooperative.img")?;
/// let image = Image::new(&bytes);
/// assert!(image.open("MARA")?.map(image, &mut [0; MAP]).is_ok());
/// # Ok::<(), Box<dyn std::error::Error>>(())
/// ```
pub const MAP: usize = 210;

impl Session {
    /// The session's map, at the front of the buffer; later bytes stay. A map is one bit for each label
    /// record of the image: bit p mod 8 of byte p div 8 is set exactly if the session may read the label of
    /// record p, counted from 0 in the order of the image, and for a user with READ or FULL always. It has as
    /// few bytes as hold the bits, spare bits zero: none where there are no labels, and at most [`MAP`].
    /// Refusals: 1, 2, 31 to 35, 19, 13 the map is longer than the buffer.
    ///
    /// A map is that of an image and a session: after a change of the image or of the session label judge
    /// it again. docs/MAPS.md tells how a compiler bakes one into its loop.
    ///
    /// ```
    /// # use brawnesk::{Image, Refusal, MAP};
    /// # let bytes = std::fs::read("../../sample/cooperative.img")?;
    /// let image = Image::new(&bytes);
    /// let session = image.open("MARA")?;
    /// // The labels of tags 10, 20 and 30: MARA may read the first and the third.
    /// assert_eq!(session.map(image, &mut [0; MAP])?, [0b101]);
    /// assert_eq!(session.map(image, &mut []), Err(Refusal::Room));
    /// # Ok::<(), Box<dyn std::error::Error>>(())
    /// ```
    pub fn map<'b>(&self, image: Image, buffer: &'b mut [u8]) -> Result<&'b [u8], Refusal> {
        let ((image, length), session) = (image.lent(), self.0.as_ptr());
        let (out, room) = (buffer.as_mut_ptr(), buffer.len());
        let answer = decode(unsafe { raw::brawnesk_map(image, length, session, out, room) })?;
        Ok(&buffer[..answer as usize])
    }

    /// Is that the session's map, in each of its bits and in its length? Refusals: 1, 2, 31 to 35, 19,
    /// 20 it is not.
    ///
    /// ```
    /// # use brawnesk::{Image, Refusal};
    /// # let bytes = std::fs::read("../../sample/cooperative.img")?;
    /// let image = Image::new(&bytes);
    /// let mut session = image.open("MARA")?;
    /// assert_eq!(session.judge_map(image, &[0b101]), Ok(()));
    /// session.set_row_label(image, "CREW::DOCK")?;
    /// session.set_label(image, "CREW:GLAZE:NORTH")?; // KILN is given up, and tag 10 has it
    /// assert_eq!(session.judge_map(image, &[0b101]), Err(Refusal::WrongMap));
    /// # Ok::<(), Box<dyn std::error::Error>>(())
    /// ```
    pub fn judge_map(&self, image: Image, map: &[u8]) -> Result<(), Refusal> {
        let ((image, length), session) = (image.lent(), self.0.as_ptr());
        let (map, bytes) = (map.as_ptr(), map.len());
        decode(unsafe { raw::brawnesk_judge_map(image, length, session, map, bytes) })?;
        Ok(())
    }

    /// Judges the map, and then hands out rows by their bits: the same rows as [`Session::read`] does, whole
    /// and in order, at the front of the buffer; later bytes stay. A row whose tag no label carries has no
    /// bit, and is judged as [`Session::may_read`] says. Refusals: 1, 2, 31 to 35, 19, 12, 20 the map is
    /// not the session's (also where the table has no rows), 13 the rows are longer than the buffer.
    ///
    /// ```
    /// # use brawnesk::{Image, Refusal};
    /// # let bytes = std::fs::read("../../sample/cooperative.img")?;
    /// let image = Image::new(&bytes);
    /// let session = image.open("MARA")?;
    /// let table = [20, 0, 0, 0, b'a', 30, 0, 0, 0, b'b'];
    /// let mut buffer = [0; 10];
    /// let mut rows = session.read_mapped(image, &table, 5, &[0b101], &mut buffer)?;
    /// assert_eq!(rows.len(), 1);
    /// assert_eq!(rows.next(), Some(&[30, 0, 0, 0, b'b'][..]));
    /// let refused = session.read_mapped(image, &table, 5, &[0b111], &mut buffer);
    /// assert_eq!(refused.unwrap_err(), Refusal::WrongMap);
    /// # Ok::<(), Box<dyn std::error::Error>>(())
    /// ```
    pub fn read_mapped<'b>(
        &self,
        image: Image,
        table: &[u8],
        width: usize,
        map: &[u8],
        buffer: &'b mut [u8],
    ) -> Result<ChunksExact<'b, u8>, Refusal> {
        let ((image, length), session) = (image.lent(), self.0.as_ptr());
        let (table, size) = (table.as_ptr(), table.len());
        let (map, bytes) = (map.as_ptr(), map.len());
        let (out, room) = (buffer.as_mut_ptr(), buffer.len());
        let count = decode(unsafe {
            raw::brawnesk_read_mapped(
                image, length, session, table, size, width, map, bytes, out, room,
            )
        })?;
        Ok(buffer[..count as usize * width].chunks_exact(width))
    }
}
