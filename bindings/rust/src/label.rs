//! Two labels: dominance under an image, and merging.

use crate::raw;
use crate::{decode, Image, Refusal};

/// The bytes of a label.
///
/// ```
/// # use brawnesk::{Image, LABEL};
/// # let bytes = std::fs::read("../../sample/cooperative.img")?;
/// assert_eq!(Image::new(&bytes).parse("OPEN")?.0, [0; LABEL]); // level 0, and no places
/// # Ok::<(), Box<dyn std::error::Error>>(())
/// ```
pub const LABEL: usize = 48;

/// A label in its bytes: byte 4 the level's place; 8..15 the compartments and 16..47 the groups, as
/// little-endian sets with bit p for place p. The other bytes are written as zero and not looked at.
/// All 256 places of the groups count, whatever the edition: a group that the policy lacks is refused,
/// 18 or inside a session 19, and merging, which is lent no image, loses none.
///
/// Places are those of one image, and of that image moved up. Labels of two other images cannot be
/// compared. `Debug` shows places, and [`Label::shown`] the text too.
///
/// ```
/// # use brawnesk::Image;
/// # let bytes = std::fs::read("../../sample/cooperative.img")?;
/// let label = Image::new(&bytes).parse("CREW:KILN,GLAZE:NORTH")?;
/// assert_eq!(format!("{label:?}"), "Label { level: 1, compartments: {0, 1}, groups: {1} }");
/// # Ok::<(), Box<dyn std::error::Error>>(())
/// ```
#[derive(Clone, Copy, PartialEq, Eq)]
pub struct Label(pub [u8; LABEL]);

impl Label {
    /// Does this label dominate the other: is its level at least as high, has it all compartments of
    /// the other, and has the other no groups, or one that is among this label's or has an ancestor
    /// there, at any distance? Under a release image, in place of that: are all groups of this label among
    /// the other's? Refusals: 1, 2, 31 to 35, 18 the policy lacks what either label names.
    ///
    /// Where a session's user has none of READ, FULL and COMPACCESS, the session may read a row whose
    /// tag the image has exactly if the session label dominates the row's label.
    ///
    /// ```
    /// # use brawnesk::Image;
    /// # let bytes = std::fs::read("../../sample/cooperative.img")?;
    /// let image = Image::new(&bytes);
    /// let (north, dock) = (image.parse("CREW::NORTH")?, image.parse("CREW::DOCK")?);
    /// assert_eq!(north.dominates(image, dock), Ok(true)); // DOCK is below NORTH
    /// assert_eq!(dock.dominates(image, north), Ok(false));
    /// # Ok::<(), Box<dyn std::error::Error>>(())
    /// ```
    pub fn dominates(self, image: Image, other: Label) -> Result<bool, Refusal> {
        let ((image, length), one, two) = (image.lent(), self.0.as_ptr(), other.0.as_ptr());
        let answer = unsafe { raw::brawnesk_dominates(image, length, one, two) };
        Ok(decode(answer)? == 1)
    }

    /// Does this label dominate the other, and do the two differ in level, compartments or groups?
    /// Refusals: as for [`Label::dominates`].
    ///
    /// ```
    /// # use brawnesk::Image;
    /// # let bytes = std::fs::read("../../sample/cooperative.img")?;
    /// let image = Image::new(&bytes);
    /// let (north, dock) = (image.parse("CREW::NORTH")?, image.parse("CREW::DOCK")?);
    /// assert_eq!(north.strictly_dominates(image, dock), Ok(true));
    /// assert_eq!(north.strictly_dominates(image, north), Ok(false));
    /// # Ok::<(), Box<dyn std::error::Error>>(())
    /// ```
    pub fn strictly_dominates(self, image: Image, other: Label) -> Result<bool, Refusal> {
        let ((image, length), one, two) = (image.lent(), self.0.as_ptr(), other.0.as_ptr());
        let answer = unsafe { raw::brawnesk_strictly_dominates(image, length, one, two) };
        Ok(decode(answer)? == 1)
    }

    /// One label of two, by three letters: `H` or `L` for the higher or lower level; `U` union, `I`
    /// intersection, `M` this label's without the other's or `N` none, for the compartments and for
    /// the groups. Refusal: 17 other letters.
    ///
    /// ```
    /// # use brawnesk::{Image, Refusal};
    /// # let bytes = std::fs::read("../../sample/cooperative.img")?;
    /// let image = Image::new(&bytes);
    /// let (one, two) = (image.parse("CREW:KILN:NORTH")?, image.parse("VAULT:GLAZE:SOUTH")?);
    /// assert_eq!(one.merge(two, "LMU"), image.parse("CREW:KILN:NORTH,SOUTH"));
    /// assert_eq!(one.merge(two, "lmu"), Err(Refusal::MergeLetters));
    /// # Ok::<(), Box<dyn std::error::Error>>(())
    /// ```
    pub fn merge(self, other: Label, letters: impl AsRef<[u8]>) -> Result<Label, Refusal> {
        let (one, two) = (self.0.as_ptr(), other.0.as_ptr());
        let letters = letters.as_ref();
        let mut merged = [0; LABEL];
        decode(unsafe {
            raw::brawnesk_merge(
                one,
                two,
                letters.as_ptr(),
                letters.len(),
                merged.as_mut_ptr(),
            )
        })?;
        Ok(Label(merged))
    }
}
