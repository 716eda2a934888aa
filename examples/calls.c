/* Calls every function of the library and prints a line for each answer: calls IMAGE, where IMAGE is sample/cooperative.img.
 * The examples of docs/CALLS.md are quoted from here. */
#include <brawnesk.h>
#include <inttypes.h>
#include <stdio.h>
#include <stdlib.h>
#include <string.h>

/* One byte more than the longest image: a longer file is refused 1. */
static uint8_t image[BRAWNESK_IMAGE + 1];
static size_t length;

/* Rows of 8 bytes: a tag of 4 bytes and a text of 4. */
static uint8_t table[] = {20, 0, 0, 0, 'w', 'o', 'r', 'k', 10, 0, 0, 0, 'd', 'o', 'c', 'k', 30, 0, 0, 0, 'o', 'p', 'e', 'n'};

static void tell(const char *call, uint64_t answer) {
    if (brawnesk_refused(answer))
        printf("%s: refused %u\n", call, brawnesk_number(answer));
    else
        printf("%s: %" PRIu64 "\n", call, answer);
}

static void explain(uint64_t answer) {
    unsigned number = brawnesk_number(answer);
    printf("check: refused %u", number);
    if (number == BRAWNESK_BLOCK_CHECK)
        printf(" at block %u", (unsigned)brawnesk_place(answer));
    else if (number >= BRAWNESK_COMPONENT_RECORD && number <= BRAWNESK_USER_RECORD)
        printf(" at block %u record %u", (unsigned)brawnesk_block(answer), (unsigned)brawnesk_record(answer));
    else if (number == BRAWNESK_PARENT_RING)
        printf(" at group %u", (unsigned)brawnesk_place(answer));
    printf(": %s\n", brawnesk_message(number));
}

static int check(void) {
    uint64_t answer = brawnesk_check(image, length);
    if (brawnesk_refused(answer))
        explain(answer);
    else
        puts("check: accepted");
    return !brawnesk_refused(answer);
}

/* A wrong byte in record 1 of block 1, among the unused ones. It is 255, which counts as 0 does in a block's check: 2 does not refuse it. */
static void wrong_byte(void) {
    uint8_t *unused = image + 512 + 4 + 40 + 35;
    *unused = 255;
    check();
    *unused = 0;
}

static void name(void) {
    uint64_t answer = brawnesk_name(image, length, BRAWNESK_CLASS_GROUP, 2);
    if (!brawnesk_refused(answer)) {
        const char *name = (const char *)image + answer % 65536;
        printf("name: %.*s\n", (int)(answer / 65536), name);
    }
    tell("name", brawnesk_name(image, length, BRAWNESK_CLASS_GROUP, 4));
}

/* The label of a text that the sample image knows. */
static void parse(const char *text, uint8_t *label) {
    uint64_t answer = brawnesk_parse(image, length, (const uint8_t *)text, strlen(text), label);
    if (brawnesk_refused(answer)) {
        tell(text, answer);
        exit(1);
    }
}

static void unknown_name(void) {
    uint8_t label[BRAWNESK_LABEL];
    uint64_t answer = brawnesk_parse(image, length, (const uint8_t *)"CREW:KILN:QUAY", 14, label);
    if (brawnesk_refused(answer) && brawnesk_number(answer) == BRAWNESK_UNKNOWN_NAME)
        printf("parse: unknown name at %u\n", (unsigned)brawnesk_place(answer));
}

static void print(const char *call, const uint8_t *label) {
    uint8_t text[BRAWNESK_TEXT];
    uint64_t answer = brawnesk_print(image, length, label, text, sizeof text);
    if (!brawnesk_refused(answer))
        printf("%s: %.*s\n", call, (int)answer, (const char *)text);
}

/* Small letters are taken as capitals, and a print has the names as the image has them. */
static void small_letters(void) {
    uint8_t label[BRAWNESK_LABEL];
    uint64_t answer = brawnesk_parse(image, length, (const uint8_t *)"crew:Kiln:dock", 14, label);
    if (!brawnesk_refused(answer))
        print("parse", label);
    answer = brawnesk_parse(image, length, (const uint8_t *)"crew:KILN,kiln", 14, label);
    if (brawnesk_refused(answer) && brawnesk_number(answer) == BRAWNESK_REPEATED_NAME)
        printf("parse: repeated name at %u\n", (unsigned)brawnesk_place(answer));
}

static void texts(void) {
    uint8_t label[BRAWNESK_LABEL], text[15];
    unknown_name();
    small_letters();
    parse("VAULT:GLAZE,KILN", label);
    print("print", label);
    tell("print", brawnesk_print(image, length, label, text, sizeof text));
}

static void verdicts(const uint8_t *session) {
    tell("may_read", brawnesk_may_read(image, length, session, 30));
    tell("may_read", brawnesk_may_read(image, length, session, 20));
    tell("may_write", brawnesk_may_write(image, length, session, 10));
    tell("may_write", brawnesk_may_write(image, length, session, 30));
}

/* Tag 10 carries that label. MARA has no privileges, so the two answers are the same. */
static void reading(const uint8_t *session) {
    uint8_t row[BRAWNESK_LABEL];
    parse("CREW:KILN:DOCK", row);
    tell("may_read", brawnesk_may_read(image, length, session, 10));
    tell("dominates", brawnesk_dominates(image, length, session + 8, row));
}

static void read_rows(const uint8_t *session) {
    uint8_t out[sizeof table];
    uint64_t count = brawnesk_read(image, length, session, table, sizeof table, 8, out, sizeof out);
    if (!brawnesk_refused(count))
        for (size_t n = 0; n < count; n++)
            printf("read: %.4s\n", (const char *)out + 8 * n + 4);
    tell("read", brawnesk_read(image, length, session, table, sizeof table, 8, out, 15));
}

static void update(const uint8_t *session) {
    uint64_t answer = brawnesk_update(image, length, session, table, sizeof table, 8, 0, (const uint8_t *)"quay", 4);
    if (!brawnesk_refused(answer))
        printf("update: %.4s\n", (const char *)table + 8 + 4);
    tell("update", brawnesk_update(image, length, session, table, sizeof table, 8, 1, (const uint8_t *)"quay", 4));
    tell("update", brawnesk_update(image, length, session, table, sizeof table, 8, 2, (const uint8_t *)"quay", 4));
}

static void masked(const uint8_t *session) {
    const uint8_t mask[] = {'-', '-', '-', '-'};
    for (size_t place = 0; place < 3; place++) {
        uint64_t answer = brawnesk_masked(image, length, session, table, sizeof table, 8, place, mask, sizeof mask);
        if (!brawnesk_refused(answer))
            printf("masked: %.4s\n", (const char *)(answer ? table + 8 * place + 4 : mask));
    }
}

/* Of tags 10, 20 and 30 MARA may read the first and the third: bits 0 and 2. */
static void maps(const uint8_t *session) {
    uint8_t map[BRAWNESK_MAP], out[sizeof table];
    uint64_t bytes = brawnesk_map(image, length, session, map, sizeof map);
    if (brawnesk_refused(bytes))
        return;
    for (size_t n = 0; n < bytes; n++)
        printf("map: %02x\n", (unsigned)map[n]);
    tell("map", brawnesk_map(image, length, session, out, 0));
    uint64_t count = brawnesk_read_mapped(image, length, session, table, sizeof table, 8, map, bytes, out, sizeof out);
    if (!brawnesk_refused(count))
        for (size_t n = 0; n < count; n++)
            printf("read_mapped: %.4s\n", (const char *)out + 8 * n + 4);
    tell("judge_map", brawnesk_judge_map(image, length, session, map, bytes));
    map[0] = 7;
    tell("judge_map", brawnesk_judge_map(image, length, session, map, bytes));
    tell("read_mapped", brawnesk_read_mapped(image, length, session, table, sizeof table, 8, map, bytes, out, sizeof out));
}

static void set_label(uint8_t *session) {
    uint64_t answer = brawnesk_set_label(image, length, session, (const uint8_t *)"VAULT:KILN:DOCK", 15);
    if (!brawnesk_refused(answer))
        print("set_label", session + 8);
    tell("set_label", brawnesk_set_label(image, length, session, (const uint8_t *)"CREW:GLAZE:NORTH", 16));
}

static void set_row_label(uint8_t *session) {
    uint64_t answer = brawnesk_set_row_label(image, length, session, (const uint8_t *)"VAULT:KILN", 10);
    if (!brawnesk_refused(answer))
        print("set_row_label", session + 56);
    tell("set_row_label", brawnesk_set_row_label(image, length, session, (const uint8_t *)"CREW:GLAZE", 10));
}

/* Before a move up: who holds COMPACCESS, which edition 2 does not have, and the image without it. In the sample nobody holds it. */
static void compaccess(void) {
    static uint8_t cleared[BRAWNESK_IMAGE];
    uint8_t users[BRAWNESK_USERS_1];
    uint64_t count = brawnesk_compaccess_users(image, length, users, sizeof users);
    tell("compaccess_users", count);
    if (!brawnesk_refused(count))
        for (size_t n = 0; n < count; n++)
            printf("compaccess_users: the user at place %u\n", (unsigned)users[n]);
    tell("clear_compaccess", brawnesk_clear_compaccess(image, length, cleared, sizeof cleared));
    tell("clear_compaccess", brawnesk_clear_compaccess(image, length, cleared, 512));
}

/* The sample in edition 2; MARA's session goes on under it. */
static void move_up(const uint8_t *session) {
    static uint8_t moved[BRAWNESK_MOVED];
    uint8_t other[BRAWNESK_BLOCK];
    uint64_t answer = brawnesk_move_up(image, length, moved, sizeof moved);
    tell("move_up", answer);
    if (brawnesk_refused(answer))
        return;
    tell("may_read", brawnesk_may_read(moved, answer, session, 10));
    tell("move_up", brawnesk_move_up(moved, answer, other, sizeof other));
    tell("compaccess_users", brawnesk_compaccess_users(moved, answer, other, sizeof other));
    tell("move_up", brawnesk_move_up(image, length, other, sizeof other));
}

/* The sample taken apart, and written again: the same bytes. Then with a level that the second label can't have, and in an edition that there
 * is not. */
static void records(void) {
    static uint8_t components[65536], labels[65536], users[65536], written[65536];
    uint64_t c = brawnesk_component_records(image, length, components, sizeof components);
    uint64_t l = brawnesk_label_records(image, length, labels, sizeof labels);
    uint64_t u = brawnesk_user_records(image, length, users, sizeof users);
    if (brawnesk_refused(c) || brawnesk_refused(l) || brawnesk_refused(u))
        return;
    printf("records: components %u, labels %u, users %u\n", (unsigned)c / 40, (unsigned)l / 24, (unsigned)u / 128);
    tell("user_records", brawnesk_user_records(image, length, written, 127));
    uint64_t answer = brawnesk_write(1, 0, components, c, labels, l, users, u, written, sizeof written);
    if (!brawnesk_refused(answer) && answer == length && memcmp(written, image, length) == 0)
        puts("write: the same image");
    labels[24 + 4] = 3;
    answer = brawnesk_write(1, 0, components, c, labels, l, users, u, written, sizeof written);
    if (brawnesk_refused(answer) && brawnesk_number(answer) == BRAWNESK_LABEL_RECORD)
        printf("write: refused 33 at record %u\n", (unsigned)brawnesk_place(answer));
    tell("write", brawnesk_write(3, 0, components, c, labels, l, users, u, written, sizeof written));
}

static void sessions(void) {
    uint8_t session[BRAWNESK_SESSION];
    uint64_t answer = brawnesk_open(image, length, (const uint8_t *)"MARA", 4, session);
    if (brawnesk_refused(answer))
        return;
    print("open", session + 8);
    verdicts(session);
    reading(session);
    read_rows(session);
    update(session);
    masked(session);
    maps(session);
    set_label(session);
    set_row_label(session);
    tell("open", brawnesk_open(image, length, (const uint8_t *)"mara", 4, session));
    compaccess();
    move_up(session);
}

static void dominance(void) {
    uint8_t north[BRAWNESK_LABEL], dock[BRAWNESK_LABEL], both[BRAWNESK_LABEL], south[BRAWNESK_LABEL];
    parse("CREW::NORTH", north);
    parse("CREW::DOCK", dock);
    parse("CREW::DOCK,SOUTH", both);
    parse("CREW::SOUTH", south);
    tell("dominates", brawnesk_dominates(image, length, north, dock));
    tell("dominates", brawnesk_dominates(image, length, dock, north));
    tell("dominates", brawnesk_dominates(image, length, north, both));
    tell("dominates", brawnesk_dominates(image, length, both, south));
    tell("dominates", brawnesk_dominates(image, length, north, south));
    tell("strictly_dominates", brawnesk_strictly_dominates(image, length, north, dock));
    tell("strictly_dominates", brawnesk_strictly_dominates(image, length, north, north));
    tell("strictly_dominates", brawnesk_strictly_dominates(image, length, dock, both));
    tell("strictly_dominates", brawnesk_strictly_dominates(image, length, both, dock));
    south[4] = 3;
    tell("dominates", brawnesk_dominates(image, length, north, south));
}

static void merge(void) {
    uint8_t label1[BRAWNESK_LABEL], label2[BRAWNESK_LABEL], merged[BRAWNESK_LABEL];
    parse("CREW:KILN:NORTH", label1);
    parse("VAULT:GLAZE:SOUTH", label2);
    uint64_t answer = brawnesk_merge(label1, label2, (const uint8_t *)"LMU", 3, merged);
    if (!brawnesk_refused(answer))
        print("merge", merged);
    tell("merge", brawnesk_merge(label1, label2, (const uint8_t *)"lmu", 3, merged));
}

int main(int argc, char **argv) {
    FILE *file = argc == 2 ? fopen(argv[1], "rb") : NULL;
    if (!file)
        return fprintf(stderr, "usage: calls IMAGE, a file that can be read\n"), 2;
    length = fread(image, 1, sizeof image, file);
    fclose(file);
    if (!check())
        return 1;
    wrong_byte();
    name();
    texts();
    sessions();
    dominance();
    merge();
    records();
    return 0;
}
