//! What is wrong, in words, by the refusal's number: the list of the C header. `tests/refusals.rs` compares them.

const MESSAGES: [(u32, &str); 26] = [
    (1, "the image's length is 0, is not a multiple of 512, or is over 65,536 bytes"),
    (2, "the block's check is wrong, or the place stored in it is not where it stands"),
    (4, "no user has that name"),
    (5, "the text is too long, or is not LEVEL, LEVEL:list, LEVEL:list:list or LEVEL::list"),
    (6, "a name in the text is not in its class: level, compartment or group"),
    (7, "a name in the text stands earlier in the same list"),
    (8, "the level of the new label is not allowed"),
    (9, "the compartments of the new label are not allowed"),
    (10, "the groups of the new label are not allowed"),
    (11, "the row label would be above the new level, outside the new write compartments or groups, or in a release image lack a new group"),
    (12, "the row width is not 5 to 512, or the table's length is not a multiple of it"),
    (13, "the result is longer than the buffer for it"),
    (14, "there is no row of that number"),
    (15, "the session may not write that row"),
    (16, "the payload's length is not the row width minus 4"),
    (17, "the merge letters are not three, or one is not allowed at its place"),
    (18, "the policy lacks a level, compartment or group that the call names"),
    (19, "the session breaks its rules for this image"),
    (20, "the map is not that of this image and session"),
    (31, "the header, the length, a block's kind, record count or bytes outside records, or lent records' edition, profile, lengths or counts are wrong"),
    (32, "the component's class, name, numeric form, parent or unused bytes are wrong, its name repeats, or its numeric form does not rise"),
    (33, "the label's tag, level, compartments, groups or unused bytes are wrong, or its tag does not rise"),
    (34, "the user's name, privileges, levels, compartments, groups or unused bytes are wrong, or its name does not rise"),
    (35, "the group's parents never end: they come back to a group that they passed"),
    (36, "the image has users who hold COMPACCESS, a privilege that edition 2 does not have"),
    (37, "the image has over 800 labels or 32 users, more than an image of edition 2 holds"),
];

const UNKNOWN: &str = "a refusal that this program does not know";

/// The words for a number, whichever it is.
pub fn message(number: u32) -> &'static str {
    let found = MESSAGES.iter().find(|(known, _)| *known == number);
    found.map_or(UNKNOWN, |(_, words)| words)
}
