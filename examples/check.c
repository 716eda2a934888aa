/* brawnesk-check [--quiet] [FILE]: is a policy image accepted? It reads the file, or standard input.
 *
 * An accepted image gives a line on standard output, and one for each component, with its place and its name. A refused one gives one line
 * there, as the report program writes it; on standard error follow the refusal's name and what is wrong in words, and where to look: which
 * block, its kind, the record, its bytes in the file, and whose record it is. With --quiet nothing is printed.
 * Exit status: 0 accepted, 1 refused, 2 bad usage, a file that cannot be read, or output that cannot be written. */
#include <brawnesk.h>
#include <stdio.h>
#include <string.h>

/* One byte more than the longest image: a longer file is refused 1. */
static uint8_t image[BRAWNESK_IMAGE + 1];
static size_t length;

static void print_names(const char *title, uint8_t component_class) {
    for (unsigned place = 0; place < BRAWNESK_GROUPS_2; place++) {
        uint64_t answer = brawnesk_name(image, length, component_class, (uint8_t)place);
        if (brawnesk_refused(answer))
            return;
        printf("%s %u %.*s\n", title, place, (int)(answer / 65536), (const char *)image + answer % 65536);
    }
}

static void print_accepted(void) {
    puts("accepted");
    print_names("level", BRAWNESK_CLASS_LEVEL);
    print_names("compartment", BRAWNESK_CLASS_COMPARTMENT);
    print_names("group", BRAWNESK_CLASS_GROUP);
}

/* The name that the header has for a refusal number, made of its list. */
static const char *refusal_name(unsigned number) {
#define NAME_OF(known, name, words) case known: return #name;
    switch (number) { BRAWNESK_REFUSALS(NAME_OF) }
#undef NAME_OF
    return "unknown";
}

static const char *kind_of(uint8_t byte) {
    switch (byte) {
    case BRAWNESK_KIND_HEADER: return "header";
    case BRAWNESK_KIND_COMPONENTS: return "components";
    case BRAWNESK_KIND_LABELS: return "labels";
    case BRAWNESK_KIND_USERS: return "users";
    }
    return "of no known kind";
}

static const char *class_of(uint8_t byte) {
    switch (byte) {
    case BRAWNESK_CLASS_LEVEL: return "level";
    case BRAWNESK_CLASS_COMPARTMENT: return "compartment";
    case BRAWNESK_CLASS_GROUP: return "group";
    }
    return "component of no known class";
}

static void say_bytes(size_t first, size_t size) { fprintf(stderr, ", bytes %zu to %zu of the file", first, first + size - 1); }

/* A name in a record that is at fault: it is said only if it is one. */
static void say_name(const uint8_t *field) {
    const char *letters = "ABCDEFGHIJKLMNOPQRSTUVWXYZ0123456789_", *name = (const char *)field + 1;
    size_t size = field[0];
    if (size == 0 || size > BRAWNESK_NAME || strspn(name, letters) < size)
        fputs(" without a right name", stderr);
    else
        fprintf(stderr, " %.*s", (int)size, name);
}

/* The record at that place of a block: its bytes, and whose it is. */
static void say_record(size_t block, size_t place) {
    const uint8_t *start = image + block * BRAWNESK_BLOCK;
    int is_second = image[4] == 2;
    size_t size = BRAWNESK_COMPONENT_SIZE;
    if (start[0] == BRAWNESK_KIND_LABELS)
        size = is_second ? BRAWNESK_LABEL_SIZE_2 : BRAWNESK_LABEL_SIZE_1;
    else if (start[0] == BRAWNESK_KIND_USERS)
        size = is_second ? BRAWNESK_USER_SIZE_2 : BRAWNESK_USER_SIZE_1;
    const uint8_t *record = start + 4 + place * size;
    fprintf(stderr, "block %zu, %s, record %zu", block, kind_of(start[0]), place);
    say_bytes((size_t)(record - image), size);
    if (start[0] == BRAWNESK_KIND_LABELS) {
        uint32_t tag = record[0] | (uint32_t)record[1] << 8 | (uint32_t)record[2] << 16 | (uint32_t)record[3] << 24;
        fprintf(stderr, ": label of tag %lu\n", (unsigned long)tag);
        return;
    }
    int is_user = start[0] == BRAWNESK_KIND_USERS;
    fprintf(stderr, ": %s", is_user ? "user" : class_of(record[0]));
    say_name(is_user ? record : record + 1);
    fputc('\n', stderr);
}

/* The record of a group: where 35 is told, the header and the components are right. */
static void say_group(size_t group) {
    size_t place = (size_t)image[5] + image[6] + group;
    say_record(1 + place / BRAWNESK_COMPONENTS_IN_BLOCK, place % BRAWNESK_COMPONENTS_IN_BLOCK);
}

static void say_block(size_t block) {
    fprintf(stderr, "block %zu, %s", block, kind_of(image[block * BRAWNESK_BLOCK]));
    say_bytes(block * BRAWNESK_BLOCK, BRAWNESK_BLOCK);
    fputc('\n', stderr);
}

static void say_length(void) { fprintf(stderr, "%s%zu bytes were read\n", length > BRAWNESK_IMAGE ? "at least " : "", length); }

static void print_refused(uint64_t answer) {
    unsigned number = brawnesk_number(answer), place = (unsigned)brawnesk_place(answer);
    unsigned block = (unsigned)brawnesk_block(answer), record = (unsigned)brawnesk_record(answer);
    int is_record = number >= BRAWNESK_COMPONENT_RECORD && number <= BRAWNESK_USER_RECORD;
    printf("refused %u", number);
    if (number == BRAWNESK_BLOCK_CHECK)
        printf(" at block %u", place);
    else if (is_record)
        printf(" at block %u record %u", block, record);
    else if (number == BRAWNESK_PARENT_RING)
        printf(" at group %u", place);
    putchar('\n');
    fflush(stdout);
    fprintf(stderr, "%s: %s\n", refusal_name(number), brawnesk_message(number));
    if (number == BRAWNESK_IMAGE_LENGTH)
        say_length();
    else if (number == BRAWNESK_BLOCK_CHECK)
        say_block(place);
    else if (is_record)
        say_record(block, record);
    else if (number == BRAWNESK_PARENT_RING)
        say_group(place);
}

static int usage(FILE *file) {
    fputs("usage: brawnesk-check [--quiet] [FILE]\n"
          "Checks a policy image, from FILE or standard input.\n"
          "Exit status: 0 accepted, 1 refused, 2 bad usage, or input or output failed.\n", file);
    return file == stdout ? 0 : 2;
}

static int fail(const char *what) {
    perror(what);
    return 2;
}

static int check(const char *path, int is_quiet) {
    FILE *file = path ? fopen(path, "rb") : stdin;
    if (!file)
        return fail(path);
    length = fread(image, 1, sizeof image, file);
    if (ferror(file))
        return fail(path ? path : "standard input");
    uint64_t answer = brawnesk_check(image, length);
    int is_refused = brawnesk_refused(answer);
    if (!is_quiet && is_refused)
        print_refused(answer);
    else if (!is_quiet)
        print_accepted();
    return fflush(stdout) != 0 || ferror(stdout) ? fail("standard output") : is_refused;
}

int main(int argc, char **argv) {
    const char *path = NULL;
    int is_quiet = 0, files = 0;
    for (int n = 1; n < argc; n++) {
        if (strcmp(argv[n], "--quiet") == 0)
            is_quiet = 1;
        else if (strcmp(argv[n], "--help") == 0)
            return usage(stdout);
        else if (strcmp(argv[n], "--version") == 0)
            return printf("brawnesk-check %d.%d\n", BRAWNESK_VERSION_MAJOR, BRAWNESK_VERSION_MINOR) < 0 ? 2 : 0;
        else if (argv[n][0] == '-' || files++ > 0)
            return usage(stderr);
        else
            path = argv[n];
    }
    return check(path, is_quiet);
}
