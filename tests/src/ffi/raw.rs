//! The C functions as the archive has them.

#[cfg(no_library)]
const ABSENT: &str = "libabi.a is absent: build it (make library), or set BRAWNESK_LIB_DIR";

/// Declares the C functions, each of which gives a `u64`. Without the archive each call panics.
macro_rules! functions {
    ($(fn $name:ident($($argument:ident: $type:ty),* $(,)?);)*) => {
        #[cfg(not(no_library))]
        extern "C" {
            $(pub fn $name($($argument: $type),*) -> u64;)*
        }

        $(
            #[cfg(no_library)]
            #[allow(clippy::too_many_arguments)]
            pub unsafe fn $name($(_: $type),*) -> u64 {
                panic!("{ABSENT}")
            }
        )*
    };
}

functions! {
    fn brawnesk_check(image: *const u8, length: usize);
    fn brawnesk_name(image: *const u8, length: usize, class: u8, place: u8);
    fn brawnesk_parse(
        image: *const u8,
        length: usize,
        text: *const u8,
        text_length: usize,
        label: *mut u8,
    );
    fn brawnesk_print(
        image: *const u8,
        length: usize,
        label: *const u8,
        out: *mut u8,
        out_length: usize,
    );
    fn brawnesk_open(
        image: *const u8,
        length: usize,
        name: *const u8,
        name_length: usize,
        session: *mut u8,
    );
    fn brawnesk_set_label(
        image: *const u8,
        length: usize,
        session: *mut u8,
        text: *const u8,
        text_length: usize,
    );
    fn brawnesk_set_row_label(
        image: *const u8,
        length: usize,
        session: *mut u8,
        text: *const u8,
        text_length: usize,
    );
    fn brawnesk_may_read(image: *const u8, length: usize, session: *const u8, tag: u32);
    fn brawnesk_may_write(image: *const u8, length: usize, session: *const u8, tag: u32);
    fn brawnesk_read(
        image: *const u8,
        length: usize,
        session: *const u8,
        table: *const u8,
        table_length: usize,
        width: usize,
        out: *mut u8,
        out_length: usize,
    );
    fn brawnesk_update(
        image: *const u8,
        length: usize,
        session: *const u8,
        table: *mut u8,
        table_length: usize,
        width: usize,
        n: usize,
        payload: *const u8,
        payload_length: usize,
    );
    fn brawnesk_masked(
        image: *const u8,
        length: usize,
        session: *const u8,
        table: *const u8,
        table_length: usize,
        width: usize,
        place: usize,
        mask: *const u8,
        mask_length: usize,
    );
    fn brawnesk_map(
        image: *const u8,
        length: usize,
        session: *const u8,
        out: *mut u8,
        out_length: usize,
    );
    fn brawnesk_judge_map(
        image: *const u8,
        length: usize,
        session: *const u8,
        map: *const u8,
        map_length: usize,
    );
    fn brawnesk_read_mapped(
        image: *const u8,
        length: usize,
        session: *const u8,
        table: *const u8,
        table_length: usize,
        width: usize,
        map: *const u8,
        map_length: usize,
        out: *mut u8,
        out_length: usize,
    );
    fn brawnesk_dominates(
        image: *const u8,
        length: usize,
        first: *const u8,
        second: *const u8,
    );
    fn brawnesk_strictly_dominates(
        image: *const u8,
        length: usize,
        first: *const u8,
        second: *const u8,
    );
    fn brawnesk_merge(
        first: *const u8,
        second: *const u8,
        letters: *const u8,
        letters_length: usize,
        label: *mut u8,
    );
    fn brawnesk_write(
        edition: u8,
        profile: u8,
        components: *const u8,
        components_length: usize,
        labels: *const u8,
        labels_length: usize,
        users: *const u8,
        users_length: usize,
        out: *mut u8,
        out_length: usize,
    );
    fn brawnesk_component_records(
        image: *const u8,
        length: usize,
        out: *mut u8,
        out_length: usize,
    );
    fn brawnesk_label_records(
        image: *const u8,
        length: usize,
        out: *mut u8,
        out_length: usize,
    );
    fn brawnesk_user_records(
        image: *const u8,
        length: usize,
        out: *mut u8,
        out_length: usize,
    );
}
