//! Names of numbers in an image: the kind of a block, the class of a component, the profile, and the bits of
//! a user's privileges.

/// The kind of a block, its byte 0.
///
/// ```
/// use brawnesk::{Kind, BLOCK};
///
/// let image = std::fs::read("../../sample/cooperative.img")?;
/// let kinds: Vec<u8> = image.chunks(BLOCK).map(|block| block[0]).collect();
/// assert_eq!(kinds, [Kind::Header, Kind::Components, Kind::Labels, Kind::Users].map(|kind| kind as u8));
/// # Ok::<(), std::io::Error>(())
/// ```
#[derive(Clone, Copy, Debug, PartialEq, Eq, Hash)]
#[repr(u8)]
pub enum Kind {
    /// The header, block 0.
    Header = 80,
    /// Levels, compartments and groups.
    Components = 67,
    /// Labels.
    Labels = 76,
    /// Users.
    Users = 85,
}

/// A class of components, byte 0 of a component record.
///
/// ```
/// use brawnesk::{Class, Image};
///
/// let bytes = std::fs::read("../../sample/cooperative.img")?;
/// let image = Image::new(&bytes);
/// assert_eq!(image.name(Class::Level, 2), Ok("VAULT"));
/// assert_eq!(image.name(Class::Compartment, 1), Ok("GLAZE"));
/// assert_eq!(image.name(Class::Group, 3), Ok("SOUTH"));
/// # Ok::<(), std::io::Error>(())
/// ```
#[derive(Clone, Copy, Debug, PartialEq, Eq, Hash)]
#[repr(u8)]
pub enum Class {
    /// Class 1.
    Level = 1,
    /// Class 2.
    Compartment = 2,
    /// Class 3.
    Group = 3,
}

/// The profile of an image, byte 12 of its header.
///
/// ```
/// use brawnesk::Profile;
///
/// let cooperative = std::fs::read("../../sample/cooperative.img")?;
/// let partners = std::fs::read("../../sample/partners.img")?;
/// assert_eq!(cooperative[12], Profile::Parents as u8);
/// assert_eq!(partners[12], Profile::Release as u8);
/// # Ok::<(), std::io::Error>(())
/// ```
#[derive(Clone, Copy, Debug, PartialEq, Eq, Hash)]
#[repr(u8)]
pub enum Profile {
    /// A group may have a parent, and rights go down to the groups under it.
    Parents = 0,
    /// A row's groups are those that it may go to.
    Release = 1,
}

/// A privilege, one bit of byte 31 of a user record.
///
/// ```
/// use brawnesk::{write, Image, Privilege, Verdict, IMAGE};
///
/// let bytes = std::fs::read("../../sample/cooperative.img")?;
/// let image = Image::new(&bytes);
/// let [mut components, mut labels, mut users, mut written] = [[0; IMAGE]; 4];
/// let components = image.component_records(&mut components)?;
/// let labels = image.label_records(&mut labels)?;
/// let mut users = image.user_records(&mut users)?.to_vec();
/// users[31] |= Privilege::Read as u8; // MARA is the only user
///
/// let length = write(1, 0, components, labels, &users, &mut written)?;
/// let changed = Image::new(&written[..length]);
/// assert_eq!(image.open("MARA")?.may_read(image, 20), Ok(Verdict::No));
/// assert_eq!(changed.open("MARA")?.may_read(changed, 20), Ok(Verdict::Yes));
/// # Ok::<(), Box<dyn std::error::Error>>(())
/// ```
#[derive(Clone, Copy, Debug, PartialEq, Eq, Hash)]
#[repr(u8)]
pub enum Privilege {
    /// Reads every row; in edition 2 only those whose tag a label carries.
    Read = 1,
    /// Reads and writes every row; in edition 2 only those whose tag a label carries.
    Full = 2,
    /// Rights by compartments alone; only in edition 1, and not in a release image.
    Compaccess = 4,
    /// No effect yet.
    ProfileAccess = 8,
    /// No effect yet.
    Writeup = 16,
    /// No effect yet.
    Writedown = 32,
    /// No effect yet.
    Writeacross = 64,
}
