/* Changes the label at which a user's session opens: write IMAGE USER LABEL [ROW]. The image is taken apart into records, the user's default
 * label becomes LABEL, and an image is written from the records; with ROW the default row label becomes ROW then, and an image is written
 * again. A refusal tells which record breaks a rule. The image that is written last is checked, and what has changed is told: the verdicts of
 * each user's opened session on each tag, before and after. docs/IMAGE.md has the layouts of the records. */
#include <brawnesk.h>
#include <inttypes.h>
#include <stdio.h>
#include <stdlib.h>
#include <string.h>

/* Room for any image, and for the records of any. */
enum { ROOM = 65536 };

/* One byte more than the longest image: a longer file is refused 1. */
static uint8_t image[ROOM + 1], written[ROOM];
static size_t image_length, written_length;

/* The records, without blocks, and how many bytes they have. */
static uint8_t components[ROOM], labels[ROOM], users[ROOM];
static size_t components_length, labels_length, users_length;

/* By edition: the bytes of a label record, of a user record and of a set of groups. */
static size_t label_size, user_size, set_size;

/* The value of a call that has to be done. */
static uint64_t done(const char *call, uint64_t answer) {
    if (brawnesk_refused(answer)) {
        printf("%s: refused %u\n", call, brawnesk_number(answer));
        exit(1);
    }
    return answer;
}

static void load(const char *path) {
    FILE *file = fopen(path, "rb");
    if (!file) {
        perror(path);
        exit(2);
    }
    image_length = fread(image, 1, sizeof image, file);
    fclose(file);
}

/* Only an accepted image is taken apart, so that its byte 4 is 1 or 2. */
static void take_apart(void) {
    components_length = done("component_records", brawnesk_component_records(image, image_length, components, sizeof components));
    labels_length = done("label_records", brawnesk_label_records(image, image_length, labels, sizeof labels));
    users_length = done("user_records", brawnesk_user_records(image, image_length, users, sizeof users));
    label_size = image[4] == 2 ? 48 : 24;
    user_size = image[4] == 2 ? 200 : 128;
    set_size = image[4] == 2 ? 32 : 8;
    printf("records: components %zu, labels %zu, users %zu\n", components_length / 40, labels_length / label_size, users_length / user_size);
}

/* The edition and the profile are those of the old image. */
static uint64_t write_image(void) {
    return brawnesk_write(image[4], image[12], components, components_length, labels, labels_length, users, users_length, written, sizeof written);
}

/* A user record has the name's length in byte 0 and the name after it. */
static int name_length(const uint8_t *user) { return user[0]; }
static const char *name(const uint8_t *user) { return (const char *)user + 1; }

/* The refusal of a record tells its place in what was lent. */
static void tell_written(uint64_t answer) {
    if (!brawnesk_refused(answer)) {
        printf("write: %" PRIu64 " bytes\n", answer);
        return;
    }
    unsigned number = brawnesk_number(answer);
    printf("write: refused %u", number);
    if (number >= BRAWNESK_COMPONENT_RECORD && number <= BRAWNESK_USER_RECORD)
        printf(" at record %" PRIu32, brawnesk_place(answer));
    if (number == BRAWNESK_USER_RECORD) {
        const uint8_t *user = users + brawnesk_place(answer) * user_size;
        printf(", %.*s", name_length(user), name(user));
    }
    printf(": %s\n", brawnesk_message(number));
}

/* The record of the user of that name. */
static uint8_t *find(const char *wanted) {
    uint8_t session[BRAWNESK_SESSION];
    done("open", brawnesk_open(image, image_length, (const uint8_t *)wanted, strlen(wanted), session));
    return users + session[0] * user_size;
}

/* A user record has four levels, four sets of compartments and four of groups. The third of each is the default label's, the fourth the row
 * label's. A label in bytes has its level in byte 4, its compartments from byte 8 on and its groups from byte 16 on. */
static void put_label(uint8_t *user, unsigned which, const char *text) {
    uint8_t label[BRAWNESK_LABEL];
    done("parse", brawnesk_parse(image, image_length, (const uint8_t *)text, strlen(text), label));
    user[32 + which] = label[4];
    memcpy(user + 40 + which * 8, label + 8, 8);
    memcpy(user + 72 + which * set_size, label + 16, set_size);
}

static void print_label(const uint8_t *bytes, size_t length, const uint8_t *label) {
    uint8_t text[BRAWNESK_TEXT];
    uint64_t answer = done("print", brawnesk_print(bytes, length, label, text, sizeof text));
    printf("%.*s", (int)answer, (const char *)text);
}

/* At which labels a user's session opens under an image. */
static void tell_session(const uint8_t *bytes, size_t length, const char *user) {
    uint8_t session[BRAWNESK_SESSION];
    done("open", brawnesk_open(bytes, length, (const uint8_t *)user, strlen(user), session));
    printf("%s opens at ", user);
    print_label(bytes, length, session + 8);
    printf(", with row label ");
    print_label(bytes, length, session + 56);
    putchar('\n');
}

static uint32_t tag_of(const uint8_t *label) {
    return label[0] | (uint32_t)label[1] << 8 | (uint32_t)label[2] << 16 | (uint32_t)label[3] << 24;
}

/* The verdicts of a user's opened session on a tag, as the report writes them. */
static void verdicts(const uint8_t *bytes, size_t length, const uint8_t *user, uint32_t tag, char *said) {
    uint8_t session[BRAWNESK_SESSION];
    done("open", brawnesk_open(bytes, length, user + 1, user[0], session));
    said[0] = done("may_read", brawnesk_may_read(bytes, length, session, tag)) ? 'r' : '-';
    said[1] = done("may_write", brawnesk_may_write(bytes, length, session, tag)) ? 'w' : '-';
    said[2] = '\0';
}

/* A line for each user and tag; where the verdicts have changed, the new ones too. */
static void report(void) {
    char before[3], after[3];
    for (const uint8_t *user = users; user < users + users_length; user += user_size)
        for (const uint8_t *label = labels; label < labels + labels_length; label += label_size) {
            verdicts(image, image_length, user, tag_of(label), before);
            verdicts(written, written_length, user, tag_of(label), after);
            int is_same = strcmp(before, after) == 0;
            printf("%.*s %" PRIu32 " %s%s%s\n", name_length(user), name(user), tag_of(label), before, is_same ? "" : ", now ", is_same ? "" : after);
        }
}

int main(int argc, char **argv) {
    if (argc != 4 && argc != 5)
        return fprintf(stderr, "usage: write IMAGE USER LABEL [ROW]\n"), 2;
    load(argv[1]);
    take_apart();
    uint8_t *user = find(argv[2]);
    tell_session(image, image_length, argv[2]);
    uint64_t answer = 0;
    for (int change = 3; change < argc; change++) {
        printf("%s label %s\n", change == 3 ? "default" : "row", argv[change]);
        put_label(user, change == 3 ? 2 : 3, argv[change]);
        answer = write_image();
        tell_written(answer);
    }
    if (brawnesk_refused(answer))
        return 1;
    written_length = answer;
    done("check", brawnesk_check(written, written_length));
    puts("check: accepted");
    tell_session(written, written_length, argv[2]);
    report();
    return 0;
}
