//! A table's rows. A table is a run of rows of one width, 5 to 512 bytes: the tag in 4 bytes,
//! little-endian, and then the payload.

use crate::raw;
use crate::{decode, Image, Refusal, Session};
use core::slice::ChunksExact;

impl Session {
    /// Copies the rows that the session may read, whole and in order, to the front of the buffer, and
    /// hands them out from there, `len()` of them; later bytes stay. A table is a run of rows of one
    /// width, 5 to 512 bytes: the tag in 4 bytes, little-endian, and then the payload. A buffer as
    /// long as the table is always enough. Refusals: 1, 2, 31 to 35, 19, 12 the width is not 5 to 512
    /// or the table's length no multiple of it, 13 the rows are longer than the buffer.
    ///
    /// ```
    /// # use brawnesk::Image;
    /// # let bytes = std::fs::read("../../sample/cooperative.img")?;
    /// let image = Image::new(&bytes);
    /// let session = image.open("MARA")?;
    /// let table = [20, 0, 0, 0, b'a', 30, 0, 0, 0, b'b'];
    /// let mut buffer = [0; 10];
    /// let mut rows = session.read(image, &table, 5, &mut buffer)?;
    /// assert_eq!(rows.len(), 1);
    /// assert_eq!(rows.next(), Some(&[30, 0, 0, 0, b'b'][..]));
    /// # Ok::<(), Box<dyn std::error::Error>>(())
    /// ```
    pub fn read<'b>(
        &self,
        image: Image,
        table: &[u8],
        width: usize,
        buffer: &'b mut [u8],
    ) -> Result<ChunksExact<'b, u8>, Refusal> {
        let ((image, length), session) = (image.lent(), self.0.as_ptr());
        let (table, size) = (table.as_ptr(), table.len());
        let (out, room) = (buffer.as_mut_ptr(), buffer.len());
        let count = decode(unsafe {
            raw::brawnesk_read(image, length, session, table, size, width, out, room)
        })?;
        Ok(buffer[..count as usize * width].chunks_exact(width))
    }

    /// Replaces the payload of row `n`, counted from 0 among the rows that the session may read now,
    /// and no other byte. Refusals: 1, 2, 31 to 35, 19, 12, 16 the payload's length is not the width
    /// minus 4, 14 no row `n`, 15 row `n` is not writable.
    ///
    /// ```
    /// # use brawnesk::{Image, Refusal};
    /// # let bytes = std::fs::read("../../sample/cooperative.img")?;
    /// let image = Image::new(&bytes);
    /// let session = image.open("MARA")?;
    /// let mut table = [20, 0, 0, 0, b'a', 10, 0, 0, 0, b'b', 30, 0, 0, 0, b'c'];
    /// session.update(image, &mut table, 5, 0, b"x")?;
    /// assert_eq!(table[5..10], [10, 0, 0, 0, b'x']);
    /// assert_eq!(session.update(image, &mut table, 5, 1, b"x"), Err(Refusal::RowNotWritable));
    /// # Ok::<(), Box<dyn std::error::Error>>(())
    /// ```
    pub fn update(
        &self,
        image: Image,
        table: &mut [u8],
        width: usize,
        n: usize,
        payload: &[u8],
    ) -> Result<(), Refusal> {
        let ((image, length), session) = (image.lent(), self.0.as_ptr());
        let (table, size) = (table.as_mut_ptr(), table.len());
        let (payload, bytes) = (payload.as_ptr(), payload.len());
        decode(unsafe {
            raw::brawnesk_update(
                image, length, session, table, size, width, n, payload, bytes,
            )
        })?;
        Ok(())
    }

    /// The payload of the row at that place, counted from 0 among all rows, if the session may read
    /// it, and otherwise the mask: a part of the table, or the mask as it was lent. Refusals: 1, 2,
    /// 31 to 35, 19, 12, 14 no row at that place.
    ///
    /// ```
    /// # use brawnesk::Image;
    /// # let bytes = std::fs::read("../../sample/cooperative.img")?;
    /// let image = Image::new(&bytes);
    /// let session = image.open("MARA")?;
    /// let table = [20, 0, 0, 0, b'a', 10, 0, 0, 0, b'b'];
    /// assert_eq!(session.masked(image, &table, 5, 0, b"hidden")?, b"hidden");
    /// assert_eq!(session.masked(image, &table, 5, 1, b"hidden")?, b"b");
    /// # Ok::<(), Box<dyn std::error::Error>>(())
    /// ```
    pub fn masked<'t>(
        &self,
        image: Image,
        table: &'t [u8],
        width: usize,
        place: usize,
        mask: &'t [u8],
    ) -> Result<&'t [u8], Refusal> {
        let ((image, length), session) = (image.lent(), self.0.as_ptr());
        let (rows, size) = (table.as_ptr(), table.len());
        let (text, bytes) = (mask.as_ptr(), mask.len());
        let answer = decode(unsafe {
            raw::brawnesk_masked(
                image, length, session, rows, size, width, place, text, bytes,
            )
        })?;
        match answer {
            1 => Ok(&table[place * width..][4..width]),
            _ => Ok(mask),
        }
    }
}
