/* Brawnesk: may this session read or write a row of a shared store?
 *
 * Every function answers one 64-bit number. Below 2^63 the call is done and the number is its value. Otherwise it is refused:
 * 2^63 + number * 2^32 + place, where number is the refusal and place what it names: a block (refusal 2), an offset (6 and 7), a record as
 * block * 65,536 + its place in the block (32 to 34; of brawnesk_write its place among those lent) or a group (35), each from 0; how many
 * users (36); 0 for every other refusal. A refusal changes no lent byte. The refusals are listed, and an answer is taken apart, at the end of
 * this header.
 *
 * Lending. What a call writes overlaps nothing else that is lent to it; parts that are only read may overlap each other. Nobody changes
 * what is lent during the call. A slice's length is below 2^63. A pointer to an empty slice may not be null. A buffer that a call only
 * writes (label out, session out, text out, rows out, map out, image out, users out, records out) may be uninitialised: a call that is done
 * writes what it reports, and reads no byte of it before it has written it.
 *
 * Editions. Every call that is lent an image takes edition 1 and edition 2; only brawnesk_move_up, which makes 2 of 1, and the two calls on
 * COMPACCESS before it refuse edition 2. An image of edition 1 has up to 64 groups, 1,680 labels and 96 users, one of edition 2 up to 256
 * groups, 800 labels and 32 users. Edition 2 does not have COMPACCESS: a user record that holds it is refused 34.
 *
 * Profiles. Byte 12 of an image tells its profile, in both editions: 0 groups with parents, 1 release groups; any other is refused 31. In a
 * release image the groups of a row are those that it may go to: without READ and FULL a session may read or write a row only if all groups
 * of the session label are among them. Groups have no parents there (32), and users do not hold COMPACCESS (34). */
#ifndef BRAWNESK_H
#define BRAWNESK_H

#include <stddef.h>
#include <stdint.h>

#ifdef __cplusplus
extern "C" {
#endif

/* The version of this header and of its archive. MINOR rises where calls or names are added, MAJOR where programs have to be changed or compiled
 * again. */
#define BRAWNESK_VERSION_MAJOR 0
#define BRAWNESK_VERSION_MINOR 1

/* Limits: how many there may be at most, or how many bytes. A name that ends in _1 or _2 is for that edition alone. */
enum { BRAWNESK_BLOCK = 512, BRAWNESK_BLOCKS = 128 }; /* bytes of a block; blocks of an image: the longest that is accepted has 127 */
enum { BRAWNESK_IMAGE = 65536, BRAWNESK_MOVED = 56832 }; /* bytes of any image, and of one that a move up writes */
enum { BRAWNESK_LEVELS = 32, BRAWNESK_COMPARTMENTS = 64, BRAWNESK_GROUPS_1 = 64, BRAWNESK_GROUPS_2 = 256 };
enum { BRAWNESK_LABELS_1 = 1680, BRAWNESK_LABELS_2 = 800, BRAWNESK_USERS_1 = 96, BRAWNESK_USERS_2 = 32 };
enum { BRAWNESK_NAME = 30, BRAWNESK_NUMERIC_FORM = 9999 }; /* bytes of a component's or a user's name; a component's numeric form */
enum { BRAWNESK_ROW_MIN = 5, BRAWNESK_ROW_MAX = 512 }; /* bytes of a row, its tag among them */
enum { BRAWNESK_TAG = 4, BRAWNESK_TAG_MAX = 99999999 }; /* bytes of a tag; the highest that a label can carry */

/* Records: bytes of one, and how many a full block holds. */
enum { BRAWNESK_COMPONENT_SIZE = 40, BRAWNESK_COMPONENTS_IN_BLOCK = 12 };
enum { BRAWNESK_LABEL_SIZE_1 = 24, BRAWNESK_LABEL_SIZE_2 = 48, BRAWNESK_LABELS_IN_BLOCK_1 = 21, BRAWNESK_LABELS_IN_BLOCK_2 = 10 };
enum { BRAWNESK_USER_SIZE_1 = 128, BRAWNESK_USER_SIZE_2 = 200, BRAWNESK_USERS_IN_BLOCK_1 = 3, BRAWNESK_USERS_IN_BLOCK_2 = 2 };

/* Names of numbers in an image: the kind of a block, the class of a component, the profile, and the bits of a user's privileges. */
enum { BRAWNESK_KIND_HEADER = 80, BRAWNESK_KIND_COMPONENTS = 67, BRAWNESK_KIND_LABELS = 76, BRAWNESK_KIND_USERS = 85 };
enum { BRAWNESK_CLASS_LEVEL = 1, BRAWNESK_CLASS_COMPARTMENT = 2, BRAWNESK_CLASS_GROUP = 3 };
enum { BRAWNESK_PROFILE_PARENTS = 0, BRAWNESK_PROFILE_RELEASE = 1 };
enum { BRAWNESK_PRIVILEGE_READ = 1, BRAWNESK_PRIVILEGE_FULL = 2, BRAWNESK_PRIVILEGE_COMPACCESS = 4, BRAWNESK_PRIVILEGE_PROFILE_ACCESS = 8 };
enum { BRAWNESK_PRIVILEGE_WRITEUP = 16, BRAWNESK_PRIVILEGE_WRITEDOWN = 32, BRAWNESK_PRIVILEGE_WRITEACROSS = 64 };

/* Is the policy image accepted? Done: 0. Refusals: 1 length, 2 check or place of a block (the lowest such block), then 31 to 35:
 * 31 the header, a length unfit for its counts, or a block's kind, record count or bytes outside records; 32 a component record, 33 a
 * label record, 34 a user record (its block, and its place there); 35 the parents of a group never end (the lowest such group).
 * The lowest block decides among 31 to 34, in it 31 first and then the lowest record; of two records that clash the later is at fault.
 * 35 comes after all these; the rules that a user's groups lie below others, or contain others in a release image, come last, as 34. */
uint64_t brawnesk_check(const uint8_t *image, size_t image_length);

/* Where the name of a component stands: its class is one of BRAWNESK_CLASS_*; its place counts from 0 in its class, for groups up to 255.
 * Done: its offset in the image + 65,536 * its length. Refusals: 1, 2, 31 to 35, 18 no such component. */
uint64_t brawnesk_name(const uint8_t *image, size_t image_length, uint8_t component_class, uint8_t place);

/* A label is 48 bytes: byte 4 the level's place; 8..15 the compartments and 16..47 the groups, as little-endian sets with bit p
 * for place p. The other bytes are written as zero and not looked at. All 256 places of the groups count, whatever the edition: a group
 * that the policy lacks is refused, 18 or inside a session 19, and merging, which is lent no image, loses none. */
enum { BRAWNESK_LABEL = 48 };

/* The longest text of a label that is read under an image of edition 2, and of edition 1. A text that is printed is shorter: a buffer of
 * BRAWNESK_TEXT bytes is always enough. */
enum { BRAWNESK_TEXT = 10000, BRAWNESK_TEXT_1 = 4096 };

/* The label that a text names: LEVEL, LEVEL:list, LEVEL:list:list or LEVEL::list. Names have A..Z, a..z, 0..9 and underscore. Small letters
 * in a label's text are taken as capitals, so that kiln after KILN is a repeat; those of a user's name are not. Done: 0, and the label's 48
 * bytes are written. Refusals: 1, 2, 31 to 35, 5 the text's shape, then the leftmost name refused by 6 not in its class or 7 repeated (its
 * offset). */
uint64_t brawnesk_parse(const uint8_t *image, size_t image_length, const uint8_t *text, size_t text_length, uint8_t *label);

/* A label's text, at the front of the buffer, with names as the image has them, in capitals; later bytes stay. Done: its length.
 * Refusals: 1, 2, 31 to 35, 18 the label names a component that the policy lacks, 13 the text is longer than the buffer. */
uint64_t brawnesk_print(const uint8_t *image, size_t image_length, const uint8_t *label, uint8_t *text, size_t text_length);

/* A session is 104 bytes: byte 0 the user's place; byte 1 the same again (otherwise 19); 8..55 the session label; 56..103 the row
 * label. Bytes 2..7 are written as zero and not looked at. Keep the bytes as they came from the last call. */
enum { BRAWNESK_SESSION = 104 };

/* Opens a session for the user of that name, byte for byte, with the default label and the default row label. Done: 0, and the session's
 * 104 bytes are written. Refusals: 1, 2, 31 to 35, 4 no user of that name. */
uint64_t brawnesk_open(const uint8_t *image, size_t image_length, const uint8_t *name, size_t name_length, uint8_t *session);

/* Gives the session the session label, or the row label, that a text names, as brawnesk_parse reads it. Done: 0, and the session's 104
 * bytes are written.
 * Refusals: 1, 2, 31 to 35, 19 the session breaks its rules for that image, 5, then the leftmost name refused by 6 or 7 (its offset),
 * then 8 level, 9 compartments, 10 groups not allowed; a new session label also 11 the row label would stand outside it. Under a release
 * image a session label lacks none of the groups that the user reads, and a row label none of the session label's: otherwise 10 for the
 * new label, and 11 for the row label that a new session label would leave. */
uint64_t brawnesk_set_label(const uint8_t *image, size_t image_length, uint8_t *session, const uint8_t *text, size_t text_length);
uint64_t brawnesk_set_row_label(const uint8_t *image, size_t image_length, uint8_t *session, const uint8_t *text, size_t text_length);

/* May the session read, or write, a row of that tag? Done: 1 yes, 0 no. Refusals: 1, 2, 31 to 35, 19.
 * A tag that no label carries, as 0, is denied to every session under edition 2; under edition 1 a user with READ may read it, one with
 * FULL may read and write it, and any other may do neither. Row calls judge rows by the same rule. */
uint64_t brawnesk_may_read(const uint8_t *image, size_t image_length, const uint8_t *session, uint32_t tag);
uint64_t brawnesk_may_write(const uint8_t *image, size_t image_length, const uint8_t *session, uint32_t tag);

/* A table is a run of rows of one width, BRAWNESK_ROW_MIN to BRAWNESK_ROW_MAX bytes: the tag in 4 bytes, little-endian, and then the payload. */

/* Copies the rows that the session may read, whole and in order, to the front of the buffer; later bytes stay. Done: how many rows.
 * Refusals: 1, 2, 31 to 35, 19, 12 the width is not 5 to 512 or the table's length no multiple of it, 13 the rows are longer than
 * the buffer. */
uint64_t brawnesk_read(const uint8_t *image, size_t image_length, const uint8_t *session, const uint8_t *table, size_t table_length,
                       size_t width, uint8_t *out, size_t out_length);

/* Replaces the payload of row n, counted from 0 among the rows that the session may read now, and no other byte. Done: 0.
 * Refusals: 1, 2, 31 to 35, 19, 12, 16 the payload's length is not the width minus 4, 14 no row n, 15 row n is not writable. */
uint64_t brawnesk_update(const uint8_t *image, size_t image_length, const uint8_t *session, uint8_t *table, size_t table_length,
                         size_t width, size_t n, const uint8_t *payload, size_t payload_length);

/* The payload or the mask, for the row at that place, counted from 0 among all rows? Done: 1 the payload, which stands at
 * place * width + 4 of the table, width - 4 bytes; 0 the mask. The mask's bytes are not looked at.
 * Refusals: 1, 2, 31 to 35, 19, 12, 14 no row at that place. */
uint64_t brawnesk_masked(const uint8_t *image, size_t image_length, const uint8_t *session, const uint8_t *table, size_t table_length,
                         size_t width, size_t place, const uint8_t *mask, size_t mask_length);

/* A map is one bit for each label record of an image: bit p mod 8 of byte p div 8 is set exactly if the session may read the label of record
 * p, counted from 0 in the order of the image, and for a user with READ or FULL always. It has as few bytes as hold the bits, spare bits zero:
 * none where there are no labels, and at most BRAWNESK_MAP. A map is that of an image and a session: after a change of the image or of the
 * session label judge it again. docs/MAPS.md tells how a compiler bakes one into its loop. */
enum { BRAWNESK_MAP = 210 };

/* The session's map, at the front of the buffer; later bytes stay. Done: its length. Refusals: 1, 2, 31 to 35, 19, 13 the map is longer
 * than the buffer. */
uint64_t brawnesk_map(const uint8_t *image, size_t image_length, const uint8_t *session, uint8_t *out, size_t out_length);

/* Is that the session's map, in each of its bits and in its length? Done: 0, it is. Refusals: 1, 2, 31 to 35, 19, 20 it is not. */
uint64_t brawnesk_judge_map(const uint8_t *image, size_t image_length, const uint8_t *session, const uint8_t *map, size_t map_length);

/* Judges the map, and then hands out rows by their bits: the same rows as brawnesk_read does, whole and in order, at the front of the buffer;
 * later bytes stay. A row whose tag no label carries has no bit, and is judged as brawnesk_may_read says. Done: how many rows.
 * Refusals: 1, 2, 31 to 35, 19, 12, 20 the map is not the session's (also where the table has no rows), 13 the rows are longer than the
 * buffer. */
uint64_t brawnesk_read_mapped(const uint8_t *image, size_t image_length, const uint8_t *session, const uint8_t *table,
                              size_t table_length, size_t width, const uint8_t *map, size_t map_length, uint8_t *out, size_t out_length);

/* Does label 1 dominate label 2: is its level at least as high, has it all compartments of label 2, and has label 2 no groups, or one that
 * is among label 1's or has an ancestor there, at any distance? Under a release image, in place of that: are all groups of label 1 among
 * label 2's? Strictly: and the labels differ. Where a session's user has none of READ, FULL and COMPACCESS, the session may read a row whose
 * tag the image has exactly if the session label dominates the row's label.
 * Done: 1 yes, 0 no. Refusals: 1, 2, 31 to 35, 18 either label names a component that the policy lacks. */
uint64_t brawnesk_dominates(const uint8_t *image, size_t image_length, const uint8_t *label1, const uint8_t *label2);
uint64_t brawnesk_strictly_dominates(const uint8_t *image, size_t image_length, const uint8_t *label1, const uint8_t *label2);

/* One label of two, by three letters: H or L for the higher or lower level; U union, I intersection, M the first without the second or
 * N none, for the compartments and for the groups. Done: 0, and the 48 bytes of merged are written. Refusal: 17 other letters. */
uint64_t brawnesk_merge(const uint8_t *label1, const uint8_t *label2, const uint8_t *letters, size_t letters_length, uint8_t *merged);

/* The users of an image of edition 1 who hold COMPACCESS: their places, one byte each, rising, at the front of the buffer; later bytes
 * stay. BRAWNESK_USERS_1 bytes are always enough. Done: how many, 0 for a release image. Refusals: 1, 2, 31 an image of edition 2, 31 to 35,
 * 13 they are more than the buffer has bytes. */
uint64_t brawnesk_compaccess_users(const uint8_t *image, size_t image_length, uint8_t *out, size_t out_length);

/* An image of edition 1 with COMPACCESS taken from the users who hold it, at the front of the buffer; later bytes stay. Nothing else in it
 * changes but the checks of these users' blocks. The new image is accepted, and sessions go on under it: who did not hold COMPACCESS keeps
 * every verdict, and who held it loses only what COMPACCESS alone gave. Done: its length, which is the old image's. Refusals: 1, 2, 31 an
 * image of edition 2, 31 to 35, 13 the image is longer than the buffer. */
uint64_t brawnesk_clear_compaccess(const uint8_t *image, size_t image_length, uint8_t *out, size_t out_length);

/* An image of edition 1 in the layouts of edition 2, at the front of the buffer; later bytes stay. The new image is accepted and has the
 * same profile, components, labels and users, each at the same place. Sessions and labels go on under it, and their verdicts on tags that
 * labels carry are the same. Done: its length, at most BRAWNESK_MOVED. Refusals: 1, 2, 31 an image of edition 2, 31 to 35, 37 over 800 labels or 32
 * users, 36 COMPACCESS is held (by how many users), 13 the new image is longer than the buffer. */
uint64_t brawnesk_move_up(const uint8_t *image, size_t image_length, uint8_t *out, size_t out_length);

/* Records are lent and handed out one after another, without blocks, each in the bytes that it has in an image: 40 for a component; 24 for a
 * label and 128 for a user in edition 1, 48 and 200 in edition 2. docs/IMAGE.md has the layouts and the rules. An accepted image taken apart
 * and written again, with its edition and its profile, is the same bytes. What is written is accepted, and taken apart it gives the records
 * that were lent. */

/* The image of these records, at the front of the buffer; later bytes stay. 65,536 bytes are always enough. Components stand in the order
 * levels, compartments, groups, and there are as many of each as records whose byte 0 is 1, 2 or 3. Done: its length.
 * Refusals: 31 an edition but 1 and 2, a profile but 0 and 1, a length that is not whole records, or a count outside its limits; then 32 a
 * component record, 33 a label record, 34 a user record: brawnesk_place tells its place in its slice, without a block; 35 the parents of a
 * group never end (the lowest such group); 13 the image is longer than the buffer. 31 comes before any record is looked at; components come
 * before labels and labels before users, and among those of a kind the lowest decides; of two records that clash the later is at fault. A
 * component whose class is none, or is not the one that the counts put at its place, is at fault itself, however many there are. 35 comes
 * after all these; the rules that a user's groups lie below others, or contain others in profile 1, come after it, as 34. */
uint64_t brawnesk_write(uint8_t edition, uint8_t profile, const uint8_t *components, size_t components_length, const uint8_t *labels,
                        size_t labels_length, const uint8_t *users, size_t users_length, uint8_t *out, size_t out_length);

/* The records of an image of one kind, in their order, at the front of the buffer; later bytes stay. A buffer of the image's length is always
 * enough. Done: their length, 0 where there are none. Refusals: 1, 2, 31 to 35, 13 they are longer than the buffer. */
uint64_t brawnesk_component_records(const uint8_t *image, size_t image_length, uint8_t *out, size_t out_length);
uint64_t brawnesk_label_records(const uint8_t *image, size_t image_length, uint8_t *out, size_t out_length);
uint64_t brawnesk_user_records(const uint8_t *image, size_t image_length, uint8_t *out, size_t out_length);

/* The refusals: number, name, and what is wrong in words. The enum and brawnesk_message are made of this list. */
#define BRAWNESK_REFUSALS(REFUSAL) \
    REFUSAL(1, BRAWNESK_IMAGE_LENGTH, "the image's length is 0, is not a multiple of 512, or is over 65,536 bytes") \
    REFUSAL(2, BRAWNESK_BLOCK_CHECK, "the block's check is wrong, or the place stored in it is not where it stands") \
    REFUSAL(4, BRAWNESK_NO_USER, "no user has that name") \
    REFUSAL(5, BRAWNESK_TEXT_SHAPE, "the text is too long, or is not LEVEL, LEVEL:list, LEVEL:list:list or LEVEL::list") \
    REFUSAL(6, BRAWNESK_UNKNOWN_NAME, "a name in the text is not in its class: level, compartment or group") \
    REFUSAL(7, BRAWNESK_REPEATED_NAME, "a name in the text stands earlier in the same list") \
    REFUSAL(8, BRAWNESK_LEVEL_NOT_ALLOWED, "the level of the new label is not allowed") \
    REFUSAL(9, BRAWNESK_COMPARTMENTS_NOT_ALLOWED, "the compartments of the new label are not allowed") \
    REFUSAL(10, BRAWNESK_GROUPS_NOT_ALLOWED, "the groups of the new label are not allowed") \
    REFUSAL(11, BRAWNESK_ROW_LABEL_OUTSIDE, \
            "the row label would be above the new level, outside the new write compartments or groups, or in a release image lack a new group") \
    REFUSAL(12, BRAWNESK_TABLE_SHAPE, "the row width is not 5 to 512, or the table's length is not a multiple of it") \
    REFUSAL(13, BRAWNESK_ROOM, "the result is longer than the buffer for it") \
    REFUSAL(14, BRAWNESK_NO_ROW, "there is no row of that number") \
    REFUSAL(15, BRAWNESK_ROW_NOT_WRITABLE, "the session may not write that row") \
    REFUSAL(16, BRAWNESK_PAYLOAD_LENGTH, "the payload's length is not the row width minus 4") \
    REFUSAL(17, BRAWNESK_MERGE_LETTERS, "the merge letters are not three, or one is not allowed at its place") \
    REFUSAL(18, BRAWNESK_NO_COMPONENT, "the policy lacks a level, compartment or group that the call names") \
    REFUSAL(19, BRAWNESK_SESSION_RULES, "the session breaks its rules for this image") \
    REFUSAL(20, BRAWNESK_WRONG_MAP, "the map is not that of this image and session") \
    REFUSAL(31, BRAWNESK_IMAGE_LAYOUT, \
            "the header, the length, a block's kind, record count or bytes outside records, or lent records' edition, profile, lengths or counts are wrong") \
    REFUSAL(32, BRAWNESK_COMPONENT_RECORD, \
            "the component's class, name, numeric form, parent or unused bytes are wrong, its name repeats, or its numeric form does not rise") \
    REFUSAL(33, BRAWNESK_LABEL_RECORD, "the label's tag, level, compartments, groups or unused bytes are wrong, or its tag does not rise") \
    REFUSAL(34, BRAWNESK_USER_RECORD, \
            "the user's name, privileges, levels, compartments, groups or unused bytes are wrong, or its name does not rise") \
    REFUSAL(35, BRAWNESK_PARENT_RING, "the group's parents never end: they come back to a group that they passed") \
    REFUSAL(36, BRAWNESK_COMPACCESS_HOLDERS, "the image has users who hold COMPACCESS, a privilege that edition 2 does not have") \
    REFUSAL(37, BRAWNESK_MOVE_LIMITS, "the image has over 800 labels or 32 users, more than an image of edition 2 holds")

#define BRAWNESK_NAMED(number, name, words) name = number,
enum { BRAWNESK_REFUSALS(BRAWNESK_NAMED) };
#undef BRAWNESK_NAMED

/* An answer taken apart. Only a refused one has a number and a place. */
static inline int brawnesk_refused(uint64_t answer) { return answer >> 63 != 0; }
static inline unsigned brawnesk_number(uint64_t answer) { return (unsigned)(answer >> 32 & 0x7fffffff); }
static inline uint32_t brawnesk_place(uint64_t answer) { return (uint32_t)answer; }

/* The record of an image that 32, 33 or 34 names: its block, and its place in the block, both from 0. Ask for them of no other number, and of
 * brawnesk_write for brawnesk_place: what it is lent has no blocks. */
static inline uint32_t brawnesk_block(uint64_t answer) { return brawnesk_place(answer) / 65536; }
static inline uint32_t brawnesk_record(uint64_t answer) { return brawnesk_place(answer) % 65536; }

/* What is wrong, in words, by the refusal's number. Any number may be asked for. */
#define BRAWNESK_SAID(number, name, words) case name: return words;
static inline const char *brawnesk_message(unsigned number) {
    switch (number) { BRAWNESK_REFUSALS(BRAWNESK_SAID) }
    return "a refusal that this program does not know";
}
#undef BRAWNESK_SAID

#ifdef __cplusplus
}
#endif
#endif
