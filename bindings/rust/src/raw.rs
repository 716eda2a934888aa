//! The C functions as the library exports them: a slice is a pointer and a length, a label or a
//! session one pointer. `tests/declarations.rs` compares them with the library's source and with the
//! C header.
//!
//! SAFETY, of every call in this crate, by the rules under "Lending" of the crate's page: a pointer and
//! a length are those of a borrowed slice, and a label or a session is a borrowed array of all its
//! bytes. What a call writes is borrowed alone; what it only reads is shared, and nobody changes it. In
//! Rust a slice's length is at most `isize::MAX`, and its pointer is never null, not even an empty
//! one's. The library keeps no pointer.

unsafe extern "C" {
    pub fn brawnesk_check(image: *const u8, image_length: usize) -> u64;
    pub fn brawnesk_name(
        image: *const u8,
        image_length: usize,
        component_class: u8,
        place: u8,
    ) -> u64;
    pub fn brawnesk_parse(
        image: *const u8,
        image_length: usize,
        text: *const u8,
        text_length: usize,
        label: *mut u8,
    ) -> u64;
    pub fn brawnesk_print(
        image: *const u8,
        image_length: usize,
        label: *const u8,
        text: *mut u8,
        text_length: usize,
    ) -> u64;
    pub fn brawnesk_open(
        image: *const u8,
        image_length: usize,
        name: *const u8,
        name_length: usize,
        session: *mut u8,
    ) -> u64;
    pub fn brawnesk_set_label(
        image: *const u8,
        image_length: usize,
        session: *mut u8,
        text: *const u8,
        text_length: usize,
    ) -> u64;
    pub fn brawnesk_set_row_label(
        image: *const u8,
        image_length: usize,
        session: *mut u8,
        text: *const u8,
        text_length: usize,
    ) -> u64;
    pub fn brawnesk_may_read(
        image: *const u8,
        image_length: usize,
        session: *const u8,
        tag: u32,
    ) -> u64;
    pub fn brawnesk_may_write(
        image: *const u8,
        image_length: usize,
        session: *const u8,
        tag: u32,
    ) -> u64;
    pub fn brawnesk_read(
        image: *const u8,
        image_length: usize,
        session: *const u8,
        table: *const u8,
        table_length: usize,
        width: usize,
        out: *mut u8,
        out_length: usize,
    ) -> u64;
    pub fn brawnesk_update(
        image: *const u8,
        image_length: usize,
        session: *const u8,
        table: *mut u8,
        table_length: usize,
        width: usize,
        n: usize,
        payload: *const u8,
        payload_length: usize,
    ) -> u64;
    pub fn brawnesk_masked(
        image: *const u8,
        image_length: usize,
        session: *const u8,
        table: *const u8,
        table_length: usize,
        width: usize,
        place: usize,
        mask: *const u8,
        mask_length: usize,
    ) -> u64;
    pub fn brawnesk_map(
        image: *const u8,
        image_length: usize,
        session: *const u8,
        out: *mut u8,
        out_length: usize,
    ) -> u64;
    pub fn brawnesk_judge_map(
        image: *const u8,
        image_length: usize,
        session: *const u8,
        map: *const u8,
        map_length: usize,
    ) -> u64;
    pub fn brawnesk_read_mapped(
        image: *const u8,
        image_length: usize,
        session: *const u8,
        table: *const u8,
        table_length: usize,
        width: usize,
        map: *const u8,
        map_length: usize,
        out: *mut u8,
        out_length: usize,
    ) -> u64;
    pub fn brawnesk_dominates(
        image: *const u8,
        image_length: usize,
        label1: *const u8,
        label2: *const u8,
    ) -> u64;
    pub fn brawnesk_strictly_dominates(
        image: *const u8,
        image_length: usize,
        label1: *const u8,
        label2: *const u8,
    ) -> u64;
    pub fn brawnesk_merge(
        label1: *const u8,
        label2: *const u8,
        letters: *const u8,
        letters_length: usize,
        merged: *mut u8,
    ) -> u64;
    pub fn brawnesk_compaccess_users(
        image: *const u8,
        image_length: usize,
        out: *mut u8,
        out_length: usize,
    ) -> u64;
    pub fn brawnesk_clear_compaccess(
        image: *const u8,
        image_length: usize,
        out: *mut u8,
        out_length: usize,
    ) -> u64;
    pub fn brawnesk_move_up(
        image: *const u8,
        image_length: usize,
        out: *mut u8,
        out_length: usize,
    ) -> u64;
    pub fn brawnesk_write(
        edition: u8,
        profile: u8,
        components: *const u8,
        components_length: usize,
        labels: *const u8,
        labels_length: usize,
        users: *const u8,
        users_length: usize,
        out: *mut u8,
        out_length: usize,
    ) -> u64;
    pub fn brawnesk_component_records(
        image: *const u8,
        image_length: usize,
        out: *mut u8,
        out_length: usize,
    ) -> u64;
    pub fn brawnesk_label_records(
        image: *const u8,
        image_length: usize,
        out: *mut u8,
        out_length: usize,
    ) -> u64;
    pub fn brawnesk_user_records(
        image: *const u8,
        image_length: usize,
        out: *mut u8,
        out_length: usize,
    ) -> u64;
}
