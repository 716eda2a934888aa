//! A policy image: its check, its names, label text both ways, opening a session, and the moves: COMPACCESS
//! taken from its users, and the move up.

use crate::raw;
use crate::{decode, Class, Label, Refusal, Session, LABEL, SESSION};
use core::fmt::{self, Debug, Formatter};

/// The bytes of a policy image, borrowed. They need not have been checked: each call checks them. `Debug` shows
/// their length.
///
/// ```
/// # use brawnesk::Image;
/// let bytes = std::fs::read("../../sample/cooperative.img")?;
/// let image = Image::new(&bytes);
/// assert!(image.check().is_ok());
/// assert_eq!(format!("{image:?}"), "Image(2048 bytes)");
/// # Ok::<(), std::io::Error>(())
/// ```
#[derive(Clone, Copy, PartialEq, Eq)]
pub struct Image<'a>(&'a [u8]);

impl<'a> Image<'a> {
    /// An image of these bytes, whatever they are.
    ///
    /// ```
    /// # use brawnesk::{Image, Refusal};
    /// assert_eq!(Image::new(b"no image").check(), Err(Refusal::ImageLength));
    /// ```
    pub const fn new(bytes: &'a [u8]) -> Image<'a> {
        Image(bytes)
    }

    /// The bytes.
    ///
    /// ```
    /// # use brawnesk::Image;
    /// assert_eq!(Image::new(&[1, 2, 3]).bytes(), [1, 2, 3]);
    /// ```
    pub const fn bytes(self) -> &'a [u8] {
        self.0
    }

    /// Pointer and length, for a call.
    pub(crate) fn lent(self) -> (*const u8, usize) {
        (self.0.as_ptr(), self.0.len())
    }

    /// Is the image accepted? Refusals: 1 length, 2 check or place of a block, then 31 to 35: 31 the
    /// header, a length unfit for its counts, or a block's kind, record count or bytes outside
    /// records; 32 a component record, 33 a label record, 34 a user record; 35 the parents of a group
    /// never end. The lowest block decides among 31 to 34, in it 31 first and then the lowest record;
    /// of two records that clash the later is at fault. 35 comes after all these; the rules that a
    /// user's groups lie below others, or contain others in a release image, come last, as 34. The calls
    /// that are lent an image give 1, 2 and 31 to 35 first.
    ///
    /// ```
    /// # use brawnesk::{Image, Refusal};
    /// let mut bytes = std::fs::read("../../sample/cooperative.img")?;
    /// assert_eq!(Image::new(&bytes).check(), Ok(()));
    /// bytes[512 + 4 + 40 + 35] = 255; // unused; in a block's check 255 counts as 0
    /// let refusal = Refusal::ComponentRecord { block: 1, record: 1 };
    /// assert_eq!(Image::new(&bytes).check(), Err(refusal));
    /// bytes[600] = b'X';
    /// assert_eq!(Image::new(&bytes).check(), Err(Refusal::BlockCheck(1)));
    /// # Ok::<(), std::io::Error>(())
    /// ```
    pub fn check(self) -> Result<(), Refusal> {
        let (image, length) = self.lent();
        decode(unsafe { raw::brawnesk_check(image, length) })?;
        Ok(())
    }

    /// The name of the component of that class and place, counted from 0 in its class, for groups up
    /// to 255: the part of the image that holds it. Refusals: 1, 2, 31 to 35, 18 no such component.
    ///
    /// ```
    /// # use brawnesk::{Class, Image, Refusal};
    /// # let bytes = std::fs::read("../../sample/cooperative.img")?;
    /// let image = Image::new(&bytes);
    /// assert_eq!(image.name(Class::Group, 2), Ok("DOCK"));
    /// assert_eq!(image.name(Class::Group, 4), Err(Refusal::NoComponent));
    /// # Ok::<(), std::io::Error>(())
    /// ```
    pub fn name(self, class: Class, place: u8) -> Result<&'a str, Refusal> {
        let (image, length) = self.lent();
        let answer = decode(unsafe { raw::brawnesk_name(image, length, class as u8, place) })?;
        let (offset, length) = (answer as usize % 65_536, answer as usize / 65_536);
        Ok(text(&self.0[offset..][..length]))
    }

    /// The label that a text names: `LEVEL`, `LEVEL:list`, `LEVEL:list:list` or `LEVEL::list`. Names have
    /// A..Z, a..z, 0..9 and underscore. Small letters in a label's text are taken as capitals, so that kiln
    /// after KILN is a repeat; those of a user's name are not. Refusals: 1, 2, 31 to 35, 5 the text's
    /// shape, then the leftmost name refused by 6 not in its class or 7 repeated.
    ///
    /// ```
    /// # use brawnesk::{Image, Refusal};
    /// # let bytes = std::fs::read("../../sample/cooperative.img")?;
    /// let image = Image::new(&bytes);
    /// assert_eq!(image.parse("VAULT:GLAZE,KILN"), image.parse("VAULT:KILN,GLAZE"));
    /// assert_eq!(image.parse("CREW:OVEN"), Err(Refusal::UnknownName(5)));
    /// assert_eq!(image.parse("vault:Glaze"), image.parse("VAULT:GLAZE"));
    /// assert_eq!(image.parse("CREW:KILN,kiln"), Err(Refusal::RepeatedName(10)));
    /// # Ok::<(), std::io::Error>(())
    /// ```
    pub fn parse(self, text: impl AsRef<[u8]>) -> Result<Label, Refusal> {
        let ((image, length), text) = (self.lent(), text.as_ref());
        let mut label = [0; LABEL];
        decode(unsafe {
            raw::brawnesk_parse(image, length, text.as_ptr(), text.len(), label.as_mut_ptr())
        })?;
        Ok(Label(label))
    }

    /// A label's text, at the front of the buffer, with names as the image has them, in capitals; later
    /// bytes stay. [`TEXT`](crate::TEXT) bytes are always enough. Refusals: 1, 2, 31 to 35, 18 the policy lacks what the
    /// label names, 13 the text is longer than the buffer.
    ///
    /// ```
    /// # use brawnesk::{Image, Refusal, TEXT};
    /// # let bytes = std::fs::read("../../sample/cooperative.img")?;
    /// let image = Image::new(&bytes);
    /// let label = image.parse("VAULT:GLAZE,KILN")?;
    /// assert_eq!(image.print(label, &mut [0; TEXT]), Ok("VAULT:KILN,GLAZE"));
    /// assert_eq!(image.print(label, &mut [0; 15]), Err(Refusal::Room));
    /// # Ok::<(), Box<dyn std::error::Error>>(())
    /// ```
    pub fn print(self, label: Label, buffer: &mut [u8]) -> Result<&str, Refusal> {
        let ((image, length), Label(label)) = (self.lent(), label);
        let (out, room) = (buffer.as_mut_ptr(), buffer.len());
        let answer =
            decode(unsafe { raw::brawnesk_print(image, length, label.as_ptr(), out, room) })?;
        Ok(text(&buffer[..answer as usize]))
    }

    /// Opens a session for the user of that name, with the default label and the default row label.
    /// Refusals: 1, 2, 31 to 35, 4 no user of that name.
    ///
    /// ```
    /// # use brawnesk::{Image, Refusal};
    /// # let bytes = std::fs::read("../../sample/cooperative.img")?;
    /// let image = Image::new(&bytes);
    /// let session = image.open("MARA")?;
    /// assert_eq!(session.label(), image.parse("CREW:KILN,GLAZE:NORTH")?);
    /// assert_eq!(image.open("mara"), Err(Refusal::NoUser));
    /// # Ok::<(), Box<dyn std::error::Error>>(())
    /// ```
    pub fn open(self, user: impl AsRef<[u8]>) -> Result<Session, Refusal> {
        let ((image, length), name) = (self.lent(), user.as_ref());
        let mut session = [0; SESSION];
        decode(unsafe {
            raw::brawnesk_open(
                image,
                length,
                name.as_ptr(),
                name.len(),
                session.as_mut_ptr(),
            )
        })?;
        Ok(Session(session))
    }

    /// The users of an image of edition 1 who hold COMPACCESS: their places, one byte each, rising, at the
    /// front of the buffer; later bytes stay. 96 bytes are always enough. In a release image nobody holds
    /// it. Refusals: 1, 2, 31 an image of edition 2, 31 to 35, 13 they are more than the buffer has bytes.
    ///
    /// ```
    /// # use brawnesk::Image;
    /// # let bytes = std::fs::read("../../sample/cooperative.img")?;
    /// let image = Image::new(&bytes);
    /// assert_eq!(image.compaccess_users(&mut [0; 96])?, []);
    /// # Ok::<(), Box<dyn std::error::Error>>(())
    /// ```
    pub fn compaccess_users(self, out: &mut [u8]) -> Result<&[u8], Refusal> {
        let ((image, length), room) = (self.lent(), out.len());
        let answer = decode(unsafe {
            raw::brawnesk_compaccess_users(image, length, out.as_mut_ptr(), room)
        })?;
        Ok(&out[..answer as usize])
    }

    /// Lays an image of edition 1 down with COMPACCESS taken from the users who hold it, at the front of the
    /// buffer, and gives its length, which is the old image's; later bytes stay. Nothing else in it changes
    /// but the checks of these users' blocks. The new image is accepted, and sessions go on under it: who
    /// did not hold COMPACCESS keeps every verdict, and who held it loses only what COMPACCESS alone gave.
    /// Refusals: 1, 2, 31 an image of edition 2, 31 to 35, 13 the image is longer than the buffer.
    ///
    /// ```
    /// # use brawnesk::{Image, Refusal};
    /// # let bytes = std::fs::read("../../sample/cooperative.img")?;
    /// let image = Image::new(&bytes);
    /// let mut buffer = vec![0; bytes.len()];
    /// assert_eq!(image.clear_compaccess(&mut buffer), Ok(bytes.len()));
    /// assert_eq!(buffer, bytes); // nobody holds it in the sample
    /// assert_eq!(image.clear_compaccess(&mut [0; 512]), Err(Refusal::Room));
    /// # Ok::<(), std::io::Error>(())
    /// ```
    pub fn clear_compaccess(self, out: &mut [u8]) -> Result<usize, Refusal> {
        let ((image, length), room) = (self.lent(), out.len());
        let answer =
            unsafe { raw::brawnesk_clear_compaccess(image, length, out.as_mut_ptr(), room) };
        Ok(decode(answer)? as usize)
    }

    /// Lays an image of edition 1 out in the layouts of edition 2, at the front of the buffer, and gives
    /// its length, at most 56,832; later bytes stay. The new image is accepted and has the same profile,
    /// components, labels and users, each at the same place. Sessions and labels go on under it, and
    /// their verdicts on tags that labels carry are the same. Refusals: 1, 2, 31 an image of edition 2,
    /// 31 to 35, 37 over 800 labels or 32 users, 36 COMPACCESS is held (by how many users), 13 the new
    /// image is longer than the buffer.
    ///
    /// ```
    /// # use brawnesk::{Image, Refusal};
    /// # let bytes = std::fs::read("../../sample/cooperative.img")?;
    /// let image = Image::new(&bytes);
    /// let session = image.open("MARA")?;
    /// let mut buffer = [0; 56_832];
    /// let length = image.move_up(&mut buffer)?;
    /// let moved = Image::new(&buffer[..length]);
    /// assert_eq!(moved.open("MARA")?, session);
    /// assert_eq!(session.may_read(moved, 30), session.may_read(image, 30));
    /// assert_eq!(moved.move_up(&mut [0; 56_832]), Err(Refusal::ImageLayout));
    /// # Ok::<(), Box<dyn std::error::Error>>(())
    /// ```
    pub fn move_up(self, out: &mut [u8]) -> Result<usize, Refusal> {
        let ((image, length), room) = (self.lent(), out.len());
        let answer = unsafe { raw::brawnesk_move_up(image, length, out.as_mut_ptr(), room) };
        Ok(decode(answer)? as usize)
    }
}

/// As `Image(2048 bytes)`.
impl Debug for Image<'_> {
    fn fmt(&self, formatter: &mut Formatter) -> fmt::Result {
        write!(formatter, "Image({} bytes)", self.0.len())
    }
}

/// A name, or a label's text: both are ASCII in an accepted image.
pub(crate) fn text(bytes: &[u8]) -> &str {
    core::str::from_utf8(bytes).expect("the names of an accepted image are ASCII")
}
