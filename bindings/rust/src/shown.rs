//! Labels and sessions as a person reads them: by places alone, and with the names of an image.

use crate::{Image, Label, Refusal, Session, TEXT, USERS_1, USER_SIZE_1, USER_SIZE_2};
use core::fmt::{self, Debug, DebugStruct, Display, Formatter};

/// The bytes of the users of any image: those of edition 2 have fewer.
const USER_RECORDS: usize = USERS_1 * USER_SIZE_1;

/// A label or a session with the names of an image, for a message or a log: [`Label::shown`] and
/// [`Session::shown`] give one. What the image cannot name is told by its refusal.
///
/// ```
/// use brawnesk::{Image, Label, Shown};
///
/// fn log(label: Shown<Label>) -> String {
///     format!("the label is {label}")
/// }
///
/// let bytes = std::fs::read("../../sample/cooperative.img")?;
/// let image = Image::new(&bytes);
/// let label = image.parse("crew:glaze,kiln")?;
/// assert_eq!(log(label.shown(image)), "the label is CREW:KILN,GLAZE");
/// # Ok::<(), Box<dyn std::error::Error>>(())
/// ```
#[derive(Clone, Copy)]
pub struct Shown<'a, T> {
    image: Image<'a>,
    value: T,
}

impl Label {
    /// This label with its text in an image: `Display` is the text, and `Debug` has it beside the places.
    /// Either uses some 10,000 bytes of stack.
    ///
    /// ```
    /// # use brawnesk::{Image, Label};
    /// # let bytes = std::fs::read("../../sample/cooperative.img")?;
    /// let image = Image::new(&bytes);
    /// let label = image.parse("VAULT:GLAZE,KILN")?;
    /// assert_eq!(label.shown(image).to_string(), "VAULT:KILN,GLAZE");
    /// assert_eq!(
    ///     format!("{:?}", label.shown(image)),
    ///     r#"Label { text: "VAULT:KILN,GLAZE", level: 2, compartments: {0, 1}, groups: {} }"#,
    /// );
    /// let other = Label([255; 48]);
    /// assert!(other.shown(image).to_string().starts_with("refused 18: the policy lacks"));
    /// # Ok::<(), Box<dyn std::error::Error>>(())
    /// ```
    pub fn shown(self, image: Image<'_>) -> Shown<'_, Label> {
        Shown { image, value: self }
    }

    fn fields(&self, shown: &mut DebugStruct) {
        let Label(bytes) = self;
        shown.field("level", &bytes[4]);
        shown.field("compartments", &Places(&bytes[8..16]));
        shown.field("groups", &Places(&bytes[16..]));
        let unused = [
            bytes[0], bytes[1], bytes[2], bytes[3], bytes[5], bytes[6], bytes[7],
        ];
        if unused != [0; 7] {
            shown.field("unused", &unused);
        }
    }
}

impl Session {
    /// This session with its user's name and the texts of its labels in an image. `Display` has these alone,
    /// and `Debug` has them beside the places. Either uses up to 25,000 bytes of stack.
    ///
    /// ```
    /// # use brawnesk::Image;
    /// # let bytes = std::fs::read("../../sample/cooperative.img")?;
    /// let image = Image::new(&bytes);
    /// let session = image.open("MARA")?;
    /// assert_eq!(
    ///     session.shown(image).to_string(),
    ///     "MARA at CREW:KILN,GLAZE:NORTH with row label CREW:KILN:DOCK",
    /// );
    /// assert!(format!("{:?}", session.shown(image)).starts_with(
    ///     r#"Session { user: 0, name: "MARA", label: Label { text: "CREW:KILN,GLAZE:NORTH", level: 1,"#,
    /// ));
    /// # Ok::<(), Box<dyn std::error::Error>>(())
    /// ```
    pub fn shown<'a>(&self, image: Image<'a>) -> Shown<'a, Session> {
        let value = self.clone();
        Shown { image, value }
    }

    /// The bytes that no call hands out otherwise: a second user, and unused bytes.
    fn other_fields(&self, shown: &mut DebugStruct) {
        if self.0[1] != self.0[0] {
            shown.field("second_user", &self.0[1]);
        }
        if self.0[2..8] != [0; 6] {
            shown.field("unused", &&self.0[2..8]);
        }
    }
}

/// The places of a set, as `{0, 2}`.
struct Places<'a>(&'a [u8]);

impl Debug for Places<'_> {
    fn fmt(&self, formatter: &mut Formatter) -> fmt::Result {
        let has = |place: &usize| self.0[place / 8] >> (place % 8) & 1 == 1;
        let places = (0..self.0.len() * 8).filter(has);
        formatter.debug_set().entries(places).finish()
    }
}

/// As `Label { level: 1, compartments: {0, 1}, groups: {1} }`: places, since a label alone has no names. Unused
/// bytes are shown where one is not zero.
impl Debug for Label {
    fn fmt(&self, formatter: &mut Formatter) -> fmt::Result {
        let mut shown = formatter.debug_struct("Label");
        self.fields(&mut shown);
        shown.finish()
    }
}

/// As `Session { user: 0, label: .., row_label: .. }`. The second user is shown where it is another, and unused
/// bytes where one is not zero.
impl Debug for Session {
    fn fmt(&self, formatter: &mut Formatter) -> fmt::Result {
        let mut shown = formatter.debug_struct("Session");
        shown.field("user", &self.0[0]);
        shown.field("label", &self.label());
        shown.field("row_label", &self.row_label());
        self.other_fields(&mut shown);
        shown.finish()
    }
}

impl Display for Shown<'_, Label> {
    fn fmt(&self, formatter: &mut Formatter) -> fmt::Result {
        match self.image.print(self.value, &mut [0; TEXT]) {
            Ok(text) => Display::fmt(text, formatter),
            Err(refusal) => Display::fmt(&refusal, formatter),
        }
    }
}

impl Debug for Shown<'_, Label> {
    fn fmt(&self, formatter: &mut Formatter) -> fmt::Result {
        let mut shown = formatter.debug_struct("Label");
        match self.image.print(self.value, &mut [0; TEXT]) {
            Ok(text) => shown.field("text", &text),
            Err(refusal) => shown.field("text", &refusal),
        };
        self.value.fields(&mut shown);
        shown.finish()
    }
}

impl Shown<'_, Session> {
    /// Hands the user's name on: 19 where the image has no such user.
    fn with_name<R>(&self, then: impl FnOnce(Result<&str, Refusal>) -> R) -> R {
        let mut buffer = [0; USER_RECORDS];
        let size = match self.image.bytes().get(4) {
            Some(2) => USER_SIZE_2,
            _ => USER_SIZE_1,
        };
        let name = self.image.user_records(&mut buffer).and_then(|users| {
            let user = users.chunks(size).nth(self.value.0[0].into());
            let user = user.ok_or(Refusal::SessionRules)?;
            Ok(crate::image::text(&user[1..][..user[0].into()]))
        });
        then(name)
    }
}

impl Display for Shown<'_, Session> {
    fn fmt(&self, formatter: &mut Formatter) -> fmt::Result {
        self.with_name(|name| match name {
            Ok(name) => formatter.write_str(name),
            Err(refusal) => Display::fmt(&refusal, formatter),
        })?;
        let (label, row_label) = (self.value.label(), self.value.row_label());
        let (label, row_label) = (label.shown(self.image), row_label.shown(self.image));
        write!(formatter, " at {label} with row label {row_label}")
    }
}

impl Debug for Shown<'_, Session> {
    fn fmt(&self, formatter: &mut Formatter) -> fmt::Result {
        let mut shown = formatter.debug_struct("Session");
        shown.field("user", &self.value.0[0]);
        self.with_name(|name| {
            match name {
                Ok(name) => shown.field("name", &name),
                Err(refusal) => shown.field("name", &refusal),
            };
        });
        shown.field("label", &self.value.label().shown(self.image));
        shown.field("row_label", &self.value.row_label().shown(self.image));
        self.value.other_fields(&mut shown);
        shown.finish()
    }
}
