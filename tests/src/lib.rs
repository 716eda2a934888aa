//! Tests of the compiled library against a second implementation, the model, which follows
//! document 01 with requests of document 02 and shares no code with the library.
//!
//! - `model`: the rules of an image, of label text, of sessions, of verdicts, of tables and of two
//!   labels, as the document states them.
//! - `builder`: well-formed policies of both editions and profiles, and their images.
//! - `damage`: for each rule of an image, a change that breaks it; and pairs of such changes.
//! - `cases`: images by edition, profile and seed, for comparing.
//! - `texts`: label texts and labels by seed, for comparing; `spelling`: a text in other letters.
//! - `walk`: calls on sessions by seed, for comparing.
//! - `tables`: calls on rows by seed, for comparing.
//! - `maps`: calls that make maps and judge them by seed, for comparing.
//! - `moving`: moves up to edition 2 by seed, for comparing.
//! - `writing`: images written from records by seed, for comparing, and wrong writers, which have to be told.
//! - `compaccess`: lists of the users who hold COMPACCESS, and images cleared of it, by seed, for comparing.
//! - `hidden`: two tables with different hidden rows, and one sequence of calls on each, by seed.
//! - `pairs`: two labels under a policy, sessions beside label records, and two labels with merge
//!   letters, by seed, for comparing.
//! - `vectors`: cases with outside answers; `desk`: questions about the sample of the release profile.
//! - `ffi`: the compiled library; `program`: the compiled program `report`.
//! - `calls`, `row_calls`: calls as values, for the library and for the model.
//! - `compare`: the answers of both; `editions`: tests for each edition and each profile.
//! - `shifted`: lent bytes at any address.

pub mod builder;
pub mod calls;
pub mod cases;
pub mod compaccess;
pub mod compare;
pub mod damage;
pub mod desk;
mod editions;
pub mod ffi;
pub mod hidden;
pub mod maps;
pub mod model;
pub mod moving;
pub mod pairs;
pub mod program;
pub mod rng;
pub mod row_calls;
pub mod shifted;
pub mod spelling;
pub mod tables;
pub mod texts;
pub mod vectors;
pub mod walk;
pub mod writing;
