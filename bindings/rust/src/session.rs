//! A session: label changes and verdicts.

use crate::raw;
use crate::{decode, Image, Label, Refusal, LABEL};

/// The bytes of a session.
///
/// ```
/// # use brawnesk::{Image, Session, SESSION};
/// # let bytes = std::fs::read("../../sample/cooperative.img")?;
/// let stored: [u8; SESSION] = Image::new(&bytes).open("MARA")?.0;
/// assert_eq!(Session(stored), Image::new(&bytes).open("MARA")?);
/// # Ok::<(), Box<dyn std::error::Error>>(())
/// ```
pub const SESSION: usize = 104;

/// A session in its bytes: byte 0 the user's place, byte 1 the same again; 8..55 the session label,
/// 56..103 the row label. Bytes 2..7 are written as zero and not looked at.
///
/// [`Image::open`] gives one. It is for that image, and goes on under that image moved up: under another
/// one open it anew. `Debug` shows places, and [`Session::shown`] names and texts too.
///
/// ```
/// # use brawnesk::Image;
/// # let bytes = std::fs::read("../../sample/cooperative.img")?;
/// let session = Image::new(&bytes).open("MARA")?;
/// assert_eq!(
///     format!("{session:?}"),
///     "Session { user: 0, label: Label { level: 1, compartments: {0, 1}, groups: {1} }, \
///      row_label: Label { level: 1, compartments: {0}, groups: {2} } }",
/// );
/// # Ok::<(), Box<dyn std::error::Error>>(())
/// ```
#[derive(Clone, PartialEq, Eq)]
pub struct Session(pub [u8; SESSION]);

/// What a session may do with a row.
///
/// ```
/// # use brawnesk::{Image, Verdict};
/// # let bytes = std::fs::read("../../sample/cooperative.img")?;
/// let image = Image::new(&bytes);
/// let word = match image.open("MARA")?.may_write(image, 30)? {
///     Verdict::Yes => "may",
///     Verdict::No => "may not",
/// };
/// assert_eq!(word, "may not");
/// # Ok::<(), Box<dyn std::error::Error>>(())
/// ```
#[derive(Clone, Copy, Debug, PartialEq, Eq)]
pub enum Verdict {
    /// It may.
    Yes,
    /// It may not.
    No,
}

impl Verdict {
    /// Whether it may.
    ///
    /// ```
    /// # use brawnesk::Image;
    /// # let bytes = std::fs::read("../../sample/cooperative.img")?;
    /// let image = Image::new(&bytes);
    /// assert!(image.open("MARA")?.may_read(image, 30)?.is_yes());
    /// # Ok::<(), Box<dyn std::error::Error>>(())
    /// ```
    pub fn is_yes(self) -> bool {
        self == Verdict::Yes
    }

    /// Of a call's value: 1 yes, 0 no.
    fn of(value: u64) -> Verdict {
        match value {
            1 => Verdict::Yes,
            _ => Verdict::No,
        }
    }
}

impl Session {
    /// The session label.
    ///
    /// ```
    /// # use brawnesk::Image;
    /// # let bytes = std::fs::read("../../sample/cooperative.img")?;
    /// let image = Image::new(&bytes);
    /// assert_eq!(image.open("MARA")?.label(), image.parse("CREW:KILN,GLAZE:NORTH")?);
    /// # Ok::<(), Box<dyn std::error::Error>>(())
    /// ```
    pub fn label(&self) -> Label {
        self.label_at(8)
    }

    /// The row label.
    ///
    /// ```
    /// # use brawnesk::Image;
    /// # let bytes = std::fs::read("../../sample/cooperative.img")?;
    /// let image = Image::new(&bytes);
    /// assert_eq!(image.open("MARA")?.row_label(), image.parse("CREW:KILN:DOCK")?);
    /// # Ok::<(), Box<dyn std::error::Error>>(())
    /// ```
    pub fn row_label(&self) -> Label {
        self.label_at(56)
    }

    fn label_at(&self, offset: usize) -> Label {
        let mut label = [0; LABEL];
        label.copy_from_slice(&self.0[offset..][..LABEL]);
        Label(label)
    }

    /// Gives the session the session label that a text names, as [`Image::parse`] reads it; a refusal leaves
    /// the session as it was. Refusals: 1, 2, 31 to 35, 19 the session breaks its rules for that image, 5,
    /// then the leftmost name refused by 6 or 7, then 8 level, 9 compartments, 10 groups not allowed, 11 the
    /// row label would stand outside it. Under a release image a session label lacks none of the groups that
    /// the user reads, and a row label none of the session label's: otherwise 10 for the new label, and 11
    /// for the row label that a new session label would leave.
    ///
    /// ```
    /// # use brawnesk::{Image, Refusal};
    /// # let bytes = std::fs::read("../../sample/cooperative.img")?;
    /// let image = Image::new(&bytes);
    /// let mut session = image.open("MARA")?;
    /// assert_eq!(session.set_label(image, "CREW:GLAZE:NORTH"), Err(Refusal::RowLabelOutside));
    /// session.set_label(image, "VAULT:KILN:DOCK")?;
    /// assert_eq!(session.label(), image.parse("VAULT:KILN:DOCK")?);
    /// # Ok::<(), Box<dyn std::error::Error>>(())
    /// ```
    pub fn set_label(&mut self, image: Image, text: impl AsRef<[u8]>) -> Result<(), Refusal> {
        let ((image, length), text) = (image.lent(), text.as_ref());
        let session = self.0.as_mut_ptr();
        decode(unsafe {
            raw::brawnesk_set_label(image, length, session, text.as_ptr(), text.len())
        })?;
        Ok(())
    }

    /// Gives the session the row label that a text names; a refusal leaves it as it was. Refusals: as
    /// for [`Session::set_label`] up to 10, and never 11.
    ///
    /// ```
    /// # use brawnesk::{Image, Refusal};
    /// # let bytes = std::fs::read("../../sample/cooperative.img")?;
    /// let image = Image::new(&bytes);
    /// let mut session = image.open("MARA")?;
    /// assert_eq!(session.set_row_label(image, "VAULT"), Err(Refusal::LevelNotAllowed));
    /// session.set_row_label(image, "CREW")?;
    /// assert_eq!(session.row_label(), image.parse("CREW")?);
    /// # Ok::<(), Box<dyn std::error::Error>>(())
    /// ```
    pub fn set_row_label(&mut self, image: Image, text: impl AsRef<[u8]>) -> Result<(), Refusal> {
        let ((image, length), text) = (image.lent(), text.as_ref());
        let session = self.0.as_mut_ptr();
        decode(unsafe {
            raw::brawnesk_set_row_label(image, length, session, text.as_ptr(), text.len())
        })?;
        Ok(())
    }

    /// May the session read a row of that tag? Refusals: 1, 2, 31 to 35, 19.
    ///
    /// A tag that no label carries, as 0, is denied to every session under edition 2; under edition 1 a
    /// user with READ may read it, one with FULL may read and write it, and any other may do neither.
    /// Row calls judge rows by the same rule.
    ///
    /// ```
    /// # use brawnesk::{Image, Verdict};
    /// # let bytes = std::fs::read("../../sample/cooperative.img")?;
    /// let image = Image::new(&bytes);
    /// let session = image.open("MARA")?;
    /// assert_eq!(session.may_read(image, 30), Ok(Verdict::Yes));
    /// # Ok::<(), Box<dyn std::error::Error>>(())
    /// ```
    pub fn may_read(&self, image: Image, tag: u32) -> Result<Verdict, Refusal> {
        let ((image, length), session) = (image.lent(), self.0.as_ptr());
        let answer = unsafe { raw::brawnesk_may_read(image, length, session, tag) };
        Ok(Verdict::of(decode(answer)?))
    }

    /// May the session write a row of that tag? Refusals: 1, 2, 31 to 35, 19. A tag that no label
    /// carries is judged as [`Session::may_read`] says.
    ///
    /// ```
    /// # use brawnesk::{Image, Verdict};
    /// # let bytes = std::fs::read("../../sample/cooperative.img")?;
    /// let image = Image::new(&bytes);
    /// let session = image.open("MARA")?;
    /// assert_eq!(session.may_write(image, 30), Ok(Verdict::No));
    /// # Ok::<(), Box<dyn std::error::Error>>(())
    /// ```
    pub fn may_write(&self, image: Image, tag: u32) -> Result<Verdict, Refusal> {
        let ((image, length), session) = (image.lent(), self.0.as_ptr());
        let answer = unsafe { raw::brawnesk_may_write(image, length, session, tag) };
        Ok(Verdict::of(decode(answer)?))
    }
}
