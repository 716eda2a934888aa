//! Brawnesk: may this session read or write a row of a shared store?
//!
//! Safe calls of the proved C functions, one method for each. A call borrows bytes, and keeps none. The crate is
//! `no_std` and has no heap; what it links needs `memset`.
//!
//! | C function | here |
//! |---|---|
//! | `brawnesk_check`, `brawnesk_name` | [`Image::check`], [`Image::name`] |
//! | `brawnesk_parse`, `brawnesk_print` | [`Image::parse`], [`Image::print`] |
//! | `brawnesk_open` | [`Image::open`] |
//! | `brawnesk_set_label`, `brawnesk_set_row_label` | [`Session::set_label`], [`Session::set_row_label`] |
//! | `brawnesk_may_read`, `brawnesk_may_write` | [`Session::may_read`], [`Session::may_write`] |
//! | `brawnesk_read`, `brawnesk_update`, `brawnesk_masked` | [`Session::read`], [`Session::update`], [`Session::masked`] |
//! | `brawnesk_map`, `brawnesk_judge_map`, `brawnesk_read_mapped` | [`Session::map`], [`Session::judge_map`], [`Session::read_mapped`] |
//! | `brawnesk_dominates`, `brawnesk_strictly_dominates` | [`Label::dominates`], [`Label::strictly_dominates`] |
//! | `brawnesk_merge` | [`Label::merge`] |
//! | `brawnesk_compaccess_users`, `brawnesk_clear_compaccess` | [`Image::compaccess_users`], [`Image::clear_compaccess`] |
//! | `brawnesk_move_up` | [`Image::move_up`] |
//! | `brawnesk_write` | [`write()`] |
//! | `brawnesk_component_records`, `brawnesk_label_records`, `brawnesk_user_records` | [`Image::component_records`], [`Image::label_records`], [`Image::user_records`] |
//! | the inline functions that take an answer apart | [`decode`], [`Refusal::number`], [`Refusal::place`], [`Refusal::message`] |
//! | `BRAWNESK_KIND_*`, `BRAWNESK_CLASS_*`, `BRAWNESK_PROFILE_*`, `BRAWNESK_PRIVILEGE_*` | [`Kind`], [`Class`], [`Profile`], [`Privilege`] |
//! | the other constants, as `BRAWNESK_TEXT` | those of the same name, as [`TEXT`] |
//!
//! **Refusals.** A call that can be refused gives a [`Refusal`]: its number, what is returned beside it,
//! and what is wrong in words. A refusal changes no lent byte. A number that this crate does not know is
//! [`Refusal::Unknown`].
//!
//! **Every call that is lent an image checks it.** An [`Image`] is only a borrow; it does not say that
//! the bytes were checked.
//!
//! **Editions.** Every call that is lent an image takes edition 1 and edition 2; only [`Image::move_up`],
//! which makes 2 of 1, and the two calls on COMPACCESS before it refuse edition 2. An image of edition 1 has
//! up to 64 groups, 1,680 labels and 96 users, one of edition 2 up to 256 groups, 800 labels and 32 users.
//! Edition 2 does not have COMPACCESS: a user record that holds it is refused 34.
//!
//! **Profiles.** Byte 12 of an image tells its profile, in both editions: 0 groups with parents, 1 release
//! groups; any other is refused 31. In a release image the groups of a row are those that it may go to:
//! without READ and FULL a session may read or write a row only if all groups of the session label are
//! among them. Groups have no parents there (32), and users do not hold COMPACCESS (34).
//!
//! **Lending.** What a call writes overlaps nothing else that is lent to it; parts that are only read may
//! overlap each other. Nobody changes what is lent during the call. A slice's length is below 2^63. A
//! pointer to an empty slice may not be null. A buffer that a call only writes (label out, session out,
//! text out, rows out, map out, image out, users out, records out) may be uninitialised: a call that is done
//! writes what it reports, and reads no byte of it before it has written it. Safe Rust keeps these rules of the C functions: what a call
//! writes is borrowed alone.
//!
//! **For people.** `Debug` of a [`Label`] and a [`Session`] shows places; [`Label::shown`] and [`Session::shown`]
//! add the names of an image.
//!
//! **Sessions.** The library cannot tell who made a session's bytes. Keep sessions where the programs
//! of users cannot write them.
//!
//! ```
//! use brawnesk::Image;
//!
//! let bytes = std::fs::read("../../sample/cooperative.img")?;
//! let table = std::fs::read("../../sample/table.bin")?;
//! let image = Image::new(&bytes);
//! let session = image.open("MARA")?;
//! let mut buffer = vec![0; table.len()];
//! for row in session.read(image, &table, 16, &mut buffer)? {
//!     println!("{}", row.escape_ascii());
//! }
//! # Ok::<(), Box<dyn std::error::Error>>(())
//! ```

#![no_std]
#![deny(missing_docs, dead_code)]

mod answer;
mod image;
mod label;
mod limits;
mod maps;
mod messages;
mod names;
mod raw;
mod records;
mod refusal;
mod rows;
mod session;
mod shown;

pub use answer::decode;
pub use image::Image;
pub use label::{Label, LABEL};
pub use limits::*;
pub use maps::MAP;
pub use names::{Class, Kind, Privilege, Profile};
pub use records::write;
pub use refusal::Refusal;
pub use session::{Session, Verdict, SESSION};
pub use shown::Shown;
