//! Images made of records, and taken apart into them. Records are lent and handed out one after another, without
//! blocks, each in the bytes that it has in an image: 40 for a component; 24 for a label and 128 for a user in
//! edition 1, 48 and 200 in edition 2. docs/IMAGE.md has the layouts and the rules.

use crate::raw;
use crate::{decode, Image, Refusal};

/// Lays the image of these records down at the front of the buffer, and gives its length; later bytes stay. 65,536
/// bytes are always enough. Components stand in the order levels, compartments, groups, and there are as many of
/// each as records whose byte 0 is 1, 2 or 3. What is written is accepted, and taken apart it gives the records that
/// were lent.
///
/// Refusals: 31 an edition but 1 and 2, a profile but 0 and 1, a length that is not whole records, or a count outside
/// its limits; then 32 a component record, 33 a label record, 34 a user record, told by its place in its slice:
/// [`Refusal::LentComponent`], [`Refusal::LentLabel`], [`Refusal::LentUser`]; 35 the parents of a group never end;
/// 13 the image is longer than the buffer. 31 comes before any record is looked at; components come before labels and
/// labels before users, and among those of a kind the lowest decides; of two records that clash the later is at fault.
/// A component whose class is none, or is not the one that the counts put at its place, is at fault itself, however
/// many there are. 35 comes after all these; the rules that a user's groups lie below others, or contain others in
/// profile 1, come after it, as 34.
///
/// ```
/// # use brawnesk::{write, Image, Refusal};
/// # let bytes = std::fs::read("../../sample/cooperative.img")?;
/// let image = Image::new(&bytes);
/// let [mut components, mut labels, mut users] = [[0; 65_536]; 3];
/// let components = image.component_records(&mut components)?;
/// let labels = image.label_records(&mut labels)?;
/// let users = image.user_records(&mut users)?;
///
/// let mut written = [0; 65_536];
/// let length = write(1, 0, components, labels, users, &mut written)?;
/// assert_eq!(written[..length], bytes);
///
/// let mut labels = labels.to_vec();
/// labels[24 + 4] = 3; // the level of the second label: there are three, at places 0, 1 and 2
/// let refused = write(1, 0, components, &labels, users, &mut written);
/// assert_eq!(refused, Err(Refusal::LentLabel(1)));
/// # Ok::<(), Box<dyn std::error::Error>>(())
/// ```
pub fn write(
    edition: u8,
    profile: u8,
    components: &[u8],
    labels: &[u8],
    users: &[u8],
    out: &mut [u8],
) -> Result<usize, Refusal> {
    let answer = unsafe {
        raw::brawnesk_write(
            edition,
            profile,
            components.as_ptr(),
            components.len(),
            labels.as_ptr(),
            labels.len(),
            users.as_ptr(),
            users.len(),
            out.as_mut_ptr(),
            out.len(),
        )
    };
    let length = decode(answer).map_err(of_lent)?;
    Ok(length as usize)
}

/// The refusal of a record that was lent: the whole place of the answer is its place in its slice.
fn of_lent(refusal: Refusal) -> Refusal {
    match (refusal, refusal.place()) {
        (Refusal::ComponentRecord { .. }, Some(place)) => Refusal::LentComponent(place),
        (Refusal::LabelRecord { .. }, Some(place)) => Refusal::LentLabel(place),
        (Refusal::UserRecord { .. }, Some(place)) => Refusal::LentUser(place),
        _ => refusal,
    }
}

/// A call that takes records out of an image.
type Take = unsafe extern "C" fn(*const u8, usize, *mut u8, usize) -> u64;

impl Image<'_> {
    /// The component records of the image, in their order, at the front of the buffer; later bytes stay. A buffer of
    /// the image's length is always enough. Refusals: 1, 2, 31 to 35, 13 they are longer than the buffer.
    ///
    /// ```
    /// # use brawnesk::{Image, Refusal};
    /// # let bytes = std::fs::read("../../sample/cooperative.img")?;
    /// let image = Image::new(&bytes);
    /// let mut buffer = [0; 65_536];
    /// let components = image.component_records(&mut buffer)?;
    /// assert_eq!(components.len(), 9 * 40);
    /// assert_eq!(components[..6], *b"\x01\x04OPEN"); // a level, with a name of four bytes
    /// assert_eq!(image.component_records(&mut [0; 359]), Err(Refusal::Room));
    /// # Ok::<(), Box<dyn std::error::Error>>(())
    /// ```
    pub fn component_records(self, out: &mut [u8]) -> Result<&[u8], Refusal> {
        self.take(raw::brawnesk_component_records, out)
    }

    /// The label records of the image, in their order, at the front of the buffer; later bytes stay. A buffer of the
    /// image's length is always enough. Refusals: 1, 2, 31 to 35, 13 they are longer than the buffer.
    ///
    /// ```
    /// # use brawnesk::Image;
    /// # let bytes = std::fs::read("../../sample/cooperative.img")?;
    /// let mut buffer = [0; 65_536];
    /// let labels = Image::new(&bytes).label_records(&mut buffer)?;
    /// let tags: Vec<u8> = labels.chunks(24).map(|label| label[0]).collect();
    /// assert_eq!(tags, [10, 20, 30]);
    /// # Ok::<(), Box<dyn std::error::Error>>(())
    /// ```
    pub fn label_records(self, out: &mut [u8]) -> Result<&[u8], Refusal> {
        self.take(raw::brawnesk_label_records, out)
    }

    /// The user records of the image, in their order, at the front of the buffer; later bytes stay. A buffer of the
    /// image's length is always enough. Refusals: 1, 2, 31 to 35, 13 they are longer than the buffer.
    ///
    /// ```
    /// # use brawnesk::Image;
    /// # let bytes = std::fs::read("../../sample/cooperative.img")?;
    /// let mut buffer = [0; 65_536];
    /// let users = Image::new(&bytes).user_records(&mut buffer)?;
    /// assert_eq!(users.len(), 128);
    /// assert_eq!(users[..5], *b"\x04MARA");
    /// # Ok::<(), Box<dyn std::error::Error>>(())
    /// ```
    pub fn user_records(self, out: &mut [u8]) -> Result<&[u8], Refusal> {
        self.take(raw::brawnesk_user_records, out)
    }

    fn take(self, call: Take, out: &mut [u8]) -> Result<&[u8], Refusal> {
        let ((image, length), room) = (self.lent(), out.len());
        let answer = decode(unsafe { call(image, length, out.as_mut_ptr(), room) })?;
        Ok(&out[..answer as usize])
    }
}
