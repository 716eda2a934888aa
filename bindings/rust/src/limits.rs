//! Limits: how many there may be at most, or how many bytes. A name that ends in `_1` or `_2` is for that
//! edition alone. The C header has the same, each with `BRAWNESK_` before its name.

/// The first part of the version of this crate and of the library. It rises where programs have to be changed
/// or compiled again.
///
/// ```
/// assert_eq!(brawnesk::VERSION_MAJOR, 0);
/// ```
pub const VERSION_MAJOR: u32 = 0;

/// The second part of the version. It rises where calls or names are added.
///
/// ```
/// assert!((brawnesk::VERSION_MAJOR, brawnesk::VERSION_MINOR) >= (0, 1));
/// ```
pub const VERSION_MINOR: u32 = 1;

/// The bytes of a block.
///
/// ```
/// let image = std::fs::read("../../sample/cooperative.img")?;
/// assert_eq!(image.len() % brawnesk::BLOCK, 0);
/// # Ok::<(), std::io::Error>(())
/// ```
pub const BLOCK: usize = 512;

/// The blocks of an image; the longest that is accepted has 127.
///
/// ```
/// use brawnesk::{Image, Refusal, BLOCK, BLOCKS};
///
/// let image = [0; BLOCK * (BLOCKS + 1)];
/// assert_eq!(Image::new(&image).check(), Err(Refusal::ImageLength));
/// ```
pub const BLOCKS: usize = 128;

/// The bytes of an image. A buffer of that length has room for any that is written.
///
/// ```
/// use brawnesk::{BLOCK, BLOCKS, IMAGE};
///
/// assert_eq!(IMAGE, BLOCK * BLOCKS);
/// ```
pub const IMAGE: usize = 65_536;

/// The bytes of an image that a move up writes.
///
/// ```
/// use brawnesk::{Image, MOVED};
///
/// let bytes = std::fs::read("../../sample/cooperative.img")?;
/// assert!(Image::new(&bytes).move_up(&mut [0; MOVED]).is_ok());
/// # Ok::<(), std::io::Error>(())
/// ```
pub const MOVED: usize = 56_832;

/// The levels of an image.
///
/// ```
/// use brawnesk::{write, Refusal, COMPONENT_SIZE, LEVELS};
///
/// let mut levels = [[0; COMPONENT_SIZE]; LEVELS + 1];
/// levels.iter_mut().for_each(|level| level[0] = 1);
/// let refused = write(1, 0, levels.as_flattened(), &[], &[], &mut []);
/// assert_eq!(refused, Err(Refusal::ImageLayout));
/// ```
pub const LEVELS: usize = 32;

/// The compartments of an image.
///
/// ```
/// assert_eq!(brawnesk::COMPARTMENTS, 8 * 8); // a set of compartments has 8 bytes
/// ```
pub const COMPARTMENTS: usize = 64;

/// The groups of an image of edition 1.
///
/// ```
/// assert_eq!(brawnesk::GROUPS_1, 8 * 8); // a set of groups has 8 bytes in edition 1
/// ```
pub const GROUPS_1: usize = 64;

/// The groups of an image of edition 2.
///
/// ```
/// assert_eq!(brawnesk::GROUPS_2, 8 * 32); // a set of groups has 32 bytes in edition 2
/// ```
pub const GROUPS_2: usize = 256;

/// The labels of an image of edition 1.
///
/// ```
/// assert_eq!(brawnesk::LABELS_1.div_ceil(8), brawnesk::MAP);
/// ```
pub const LABELS_1: usize = 1_680;

/// The labels of an image of edition 2.
///
/// ```
/// assert!(brawnesk::LABELS_2 < brawnesk::LABELS_1);
/// ```
pub const LABELS_2: usize = 800;

/// The users of an image of edition 1.
///
/// ```
/// use brawnesk::{Image, USERS_1};
///
/// let bytes = std::fs::read("../../sample/cooperative.img")?;
/// assert!(Image::new(&bytes).compaccess_users(&mut [0; USERS_1]).is_ok());
/// # Ok::<(), std::io::Error>(())
/// ```
pub const USERS_1: usize = 96;

/// The users of an image of edition 2.
///
/// ```
/// assert!(brawnesk::USERS_2 < brawnesk::USERS_1);
/// ```
pub const USERS_2: usize = 32;

/// The bytes of a component's name, and of a user's.
///
/// ```
/// use brawnesk::{Class, Image, NAME};
///
/// let bytes = std::fs::read("../../sample/cooperative.img")?;
/// assert!(Image::new(&bytes).name(Class::Level, 0).is_ok_and(|name| name.len() <= NAME));
/// # Ok::<(), std::io::Error>(())
/// ```
pub const NAME: usize = 30;

/// A component's numeric form.
///
/// ```
/// assert_eq!(brawnesk::NUMERIC_FORM.to_string().len(), 4); // it has at most four digits
/// ```
pub const NUMERIC_FORM: u16 = 9_999;

/// The longest text of a label that is read under an image of edition 2. A text that is printed is shorter: a
/// buffer of that length is always enough.
///
/// ```
/// use brawnesk::{Image, TEXT};
///
/// let bytes = std::fs::read("../../sample/cooperative.img")?;
/// let image = Image::new(&bytes);
/// let label = image.parse("vault:glaze,kiln")?;
/// assert_eq!(image.print(label, &mut [0; TEXT]), Ok("VAULT:KILN,GLAZE"));
/// # Ok::<(), Box<dyn std::error::Error>>(())
/// ```
pub const TEXT: usize = 10_000;

/// The longest text of a label that is read under an image of edition 1.
///
/// ```
/// use brawnesk::{Image, Refusal, TEXT_1};
///
/// let bytes = std::fs::read("../../sample/cooperative.img")?; // edition 1
/// let image = Image::new(&bytes);
/// assert_eq!(image.parse([b'A'; TEXT_1]), Err(Refusal::UnknownName(0)));
/// assert_eq!(image.parse([b'A'; TEXT_1 + 1]), Err(Refusal::TextShape));
/// # Ok::<(), std::io::Error>(())
/// ```
pub const TEXT_1: usize = 4_096;

/// The fewest bytes of a row, its tag among them.
///
/// ```
/// assert_eq!(brawnesk::ROW_MIN, brawnesk::TAG + 1); // a payload of one byte
/// ```
pub const ROW_MIN: usize = 5;

/// The most bytes of a row, its tag among them.
///
/// ```
/// use brawnesk::{Image, Refusal, ROW_MAX};
///
/// let bytes = std::fs::read("../../sample/cooperative.img")?;
/// let image = Image::new(&bytes);
/// let session = image.open("MARA")?;
/// let refused = session.read(image, &[], ROW_MAX + 1, &mut []);
/// assert_eq!(refused.unwrap_err(), Refusal::TableShape);
/// # Ok::<(), Box<dyn std::error::Error>>(())
/// ```
pub const ROW_MAX: usize = 512;

/// The bytes of a row's tag.
///
/// ```
/// let row = [30, 0, 0, 0, b'o', b'p', b'e', b'n'];
/// let (tag, payload) = row.split_at(brawnesk::TAG);
/// assert_eq!((tag, payload), (&30_u32.to_le_bytes()[..], &b"open"[..]));
/// ```
pub const TAG: usize = 4;

/// The highest tag that a label can carry.
///
/// ```
/// assert_eq!(brawnesk::TAG_MAX.to_string().len(), 8); // it has at most eight digits
/// ```
pub const TAG_MAX: u32 = 99_999_999;

/// The bytes of a component record.
///
/// ```
/// use brawnesk::{Image, COMPONENT_SIZE, IMAGE};
///
/// let bytes = std::fs::read("../../sample/cooperative.img")?;
/// let mut buffer = [0; IMAGE];
/// let components = Image::new(&bytes).component_records(&mut buffer)?;
/// assert_eq!(components.len(), 9 * COMPONENT_SIZE);
/// # Ok::<(), Box<dyn std::error::Error>>(())
/// ```
pub const COMPONENT_SIZE: usize = 40;

/// The component records of a full block.
///
/// ```
/// assert_eq!(9_usize.div_ceil(brawnesk::COMPONENTS_IN_BLOCK), 1); // nine components have one block
/// ```
pub const COMPONENTS_IN_BLOCK: usize = 12;

/// The bytes of a label record of edition 1.
///
/// ```
/// use brawnesk::{Image, IMAGE, LABEL_SIZE_1};
///
/// let bytes = std::fs::read("../../sample/cooperative.img")?;
/// let mut buffer = [0; IMAGE];
/// let labels = Image::new(&bytes).label_records(&mut buffer)?;
/// assert_eq!(labels.len(), 3 * LABEL_SIZE_1);
/// # Ok::<(), Box<dyn std::error::Error>>(())
/// ```
pub const LABEL_SIZE_1: usize = 24;

/// The bytes of a label record of edition 2.
///
/// ```
/// assert_eq!(brawnesk::LABEL_SIZE_2 - brawnesk::LABEL_SIZE_1, 32 - 8); // by the set of groups
/// ```
pub const LABEL_SIZE_2: usize = 48;

/// The label records of a full block of edition 1.
///
/// ```
/// assert_eq!(brawnesk::LABELS_1 / brawnesk::LABELS_IN_BLOCK_1, 80); // blocks of the most labels
/// ```
pub const LABELS_IN_BLOCK_1: usize = 21;

/// The label records of a full block of edition 2.
///
/// ```
/// assert_eq!(brawnesk::LABELS_2 / brawnesk::LABELS_IN_BLOCK_2, 80); // blocks of the most labels
/// ```
pub const LABELS_IN_BLOCK_2: usize = 10;

/// The bytes of a user record of edition 1.
///
/// ```
/// use brawnesk::{Image, IMAGE, USER_SIZE_1};
///
/// let bytes = std::fs::read("../../sample/cooperative.img")?;
/// let mut buffer = [0; IMAGE];
/// assert_eq!(Image::new(&bytes).user_records(&mut buffer)?.len(), USER_SIZE_1);
/// # Ok::<(), Box<dyn std::error::Error>>(())
/// ```
pub const USER_SIZE_1: usize = 128;

/// The bytes of a user record of edition 2.
///
/// ```
/// assert_eq!(brawnesk::USER_SIZE_2, 72 + 4 * 32); // up to the groups, and four sets of them
/// ```
pub const USER_SIZE_2: usize = 200;

/// The user records of a full block of edition 1.
///
/// ```
/// assert_eq!(brawnesk::USERS_1 / brawnesk::USERS_IN_BLOCK_1, 32); // blocks of the most users
/// ```
pub const USERS_IN_BLOCK_1: usize = 3;

/// The user records of a full block of edition 2.
///
/// ```
/// assert_eq!(brawnesk::USERS_2 / brawnesk::USERS_IN_BLOCK_2, 16); // blocks of the most users
/// ```
pub const USERS_IN_BLOCK_2: usize = 2;
