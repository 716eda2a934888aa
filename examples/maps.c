/* Bakes a session's map into a loop: maps IMAGE TABLE USER [ROW LABEL]. The loop is written as a C file, built by gcc in a temporary folder
 * and run on the table; it has to hand out the same rows as the library. With ROW and LABEL the session then gets these as row label and
 * session label, at which it reads less: the old map is refused 20, and a new one is baked. docs/MAPS.md says why it is done so. */
#define _POSIX_C_SOURCE 200809L
#include <brawnesk.h>
#include <inttypes.h>
#include <stdio.h>
#include <stdlib.h>
#include <string.h>
#include <unistd.h>

/* A row of the sample table: a tag of 4 bytes and a text of 12. An image has up to 1,680 labels. */
enum { WIDTH = 16, MOST_LABELS = 1680 };

/* One byte more than the longest image, and than 4,096 rows: a longer file is refused, 1 or 12. */
static uint8_t image[65537], table[65537], rows[sizeof table], other_rows[sizeof table];
static size_t image_length, table_length;

static uint8_t session[BRAWNESK_SESSION];

/* What is baked in. */
static uint32_t tags[MOST_LABELS];
static uint8_t map[BRAWNESK_MAP];
static size_t labels, map_length;
static int unknown;

/* The name of the temporary folder, which is removed in the end. */
static char folder[] = "maps-XXXXXX";

static void fail(const char *words) {
    printf("failed: %s\n", words);
    exit(1);
}

static void tell(const char *call, uint64_t answer) {
    if (brawnesk_refused(answer))
        printf("%s: refused %u\n", call, brawnesk_number(answer));
    else
        printf("%s: %" PRIu64 "\n", call, answer);
}

/* The value of a call that has to be done. */
static uint64_t done(const char *call, uint64_t answer) {
    if (brawnesk_refused(answer)) {
        tell(call, answer);
        exit(1);
    }
    return answer;
}

static size_t load(const char *path, uint8_t *bytes, size_t room) {
    FILE *file = fopen(path, "rb");
    if (!file)
        fail(path);
    size_t length = fread(bytes, 1, room, file);
    fclose(file);
    return length;
}

static void leave_folder(void) {
    remove("loop.c");
    remove("loop");
    remove("table");
    remove("rows");
    if (chdir("..") != 0 || rmdir(folder) != 0)
        perror(folder);
}

/* Makes the folder and enters it, with the table as a file there, which the loop is run on. */
static void enter_folder(void) {
    const char *parent = getenv("TMPDIR");
    if (chdir(parent ? parent : "/tmp") != 0 || !mkdtemp(folder) || chdir(folder) != 0)
        fail("no temporary folder");
    atexit(leave_folder);
    FILE *file = fopen("table", "wb");
    if (!file || fwrite(table, 1, table_length, file) != table_length || fclose(file) != 0)
        fail("the table is not written");
}

static uint32_t tag_of(const uint8_t *row) {
    return row[0] | (uint32_t)row[1] << 8 | (uint32_t)row[2] << 16 | (uint32_t)row[3] << 24;
}

/* The tags of an accepted image, in the order of its label records: after the header come the components, 12 in a block, and then the labels.
 * A record stands after the first 4 bytes of its block, and begins with its tag. */
static void read_tags(void) {
    int is_second = image[4] == 2;
    size_t groups = is_second ? image[14] + 256u * image[15] : image[7];
    size_t components = image[5] + image[6] + groups;
    const uint8_t *first = image + 512 * (1 + (components + 11) / 12);
    size_t size = is_second ? 48 : 24, in_a_block = is_second ? 10 : 21;
    labels = image[10] + 256u * image[11];
    for (size_t place = 0; place < labels; place++)
        tags[place] = tag_of(first + place / in_a_block * 512 + 4 + place % in_a_block * size);
}

/* The loop that is emitted, after its constants; and a program that runs it from standard input to standard output. */
static const char loop[] =
    "/* Is a row of that tag handed out? The tag's place among the tags is the place of its bit. */\n"
    "static int handed_out(uint32_t tag) {\n"
    "    size_t low = 0, high = LABELS;\n"
    "    while (low < high) {\n"
    "        size_t place = low + (high - low) / 2;\n"
    "        if (tags[place] == tag)\n"
    "            return map[place / 8] >> place % 8 & 1;\n"
    "        if (tags[place] < tag)\n"
    "            low = place + 1;\n"
    "        else\n"
    "            high = place;\n"
    "    }\n"
    "    return UNKNOWN;\n"
    "}\n"
    "\n"
    "static uint32_t tag_of(const uint8_t *row) {\n"
    "    return row[0] | (uint32_t)row[1] << 8 | (uint32_t)row[2] << 16 | (uint32_t)row[3] << 24;\n"
    "}\n"
    "\n"
    "/* Copies the rows that are handed out to the front of a buffer as long as the table, and gives their number. */\n"
    "static size_t read_rows(const uint8_t *table, size_t length, uint8_t *out) {\n"
    "    size_t count = 0;\n"
    "    for (const uint8_t *row = table; row < table + length; row += WIDTH)\n"
    "        if (handed_out(tag_of(row)))\n"
    "            memcpy(out + WIDTH * count++, row, WIDTH);\n"
    "    return count;\n"
    "}\n"
    "\n"
    "int main(void) {\n"
    "    static uint8_t table[65536], out[sizeof table];\n"
    "    size_t length = fread(table, 1, sizeof table, stdin);\n"
    "    size_t count = read_rows(table, length, out);\n"
    "    return fwrite(out, WIDTH, count, stdout) != count;\n"
    "}\n";

/* Eight tags in a line share a byte of the map. */
static void emit(FILE *file) {
    fputs("#include <stdint.h>\n#include <stdio.h>\n#include <string.h>\n\n", file);
    fprintf(file, "enum { WIDTH = %d, LABELS = %zu, UNKNOWN = %d };\n\n", WIDTH, labels, unknown);
    fputs("/* The tags of the label records, rising, and a bit for each. The 0 at the end is not used: an array may not be empty. */\n", file);
    fputs("static const uint32_t tags[] = {", file);
    for (size_t place = 0; place < labels; place++)
        fprintf(file, "%s%" PRIu32 ",", place % 8 ? " " : "\n    ", tags[place]);
    fputs("\n    0};\nstatic const uint8_t map[] = {", file);
    for (size_t byte = 0; byte < map_length; byte++)
        fprintf(file, "%s0x%02x,", byte % 8 ? " " : "\n    ", map[byte]);
    fprintf(file, "\n    0};\n\n%s", loop);
}

static void build_loop(void) {
    FILE *file = fopen("loop.c", "w");
    if (!file)
        fail("loop.c");
    emit(file);
    if (fclose(file) != 0 || system("gcc -std=c99 -O2 -Wall -Wextra -Wpedantic -Werror loop.c -o loop") != 0)
        fail("the loop is not built");
}

/* How many rows the loop hands out; they are in other_rows then. */
static size_t run_loop(void) {
    if (system("./loop <table >rows") != 0)
        fail("the loop does not run");
    return load("rows", other_rows, sizeof other_rows) / WIDTH;
}

/* Map, tags and what becomes of unknown tags, all for this image and session. No label carries tag 0. */
static void bake(void) {
    map_length = done("map", brawnesk_map(image, image_length, session, map, sizeof map));
    unknown = (int)done("may_read", brawnesk_may_read(image, image_length, session, 0));
    read_tags();
    build_loop();
    printf("map:");
    for (size_t byte = 0; byte < map_length; byte++)
        printf(" %02x", map[byte]);
    putchar('\n');
}

static uint64_t judge(void) { return brawnesk_judge_map(image, image_length, session, map, map_length); }

static uint64_t read_mapped(void) {
    return brawnesk_read_mapped(image, image_length, session, table, table_length, WIDTH, map, map_length, other_rows, sizeof other_rows);
}

/* Row by row: other_rows against those of the library's plain read. */
static void compare(const char *reader, size_t count, size_t other_count) {
    int is_same = count == other_count;
    for (size_t n = 0; n < count && is_same; n++)
        is_same = memcmp(rows + n * WIDTH, other_rows + n * WIDTH, WIDTH) == 0;
    printf("%s: %s %zu\n", reader, is_same ? "the same" : "not the same", count);
    if (!is_same)
        exit(1);
}

/* The plain read, and beside it the mapped read and the loop, which runs on a map that was judged. */
static void read_all(void) {
    size_t count = done("read", brawnesk_read(image, image_length, session, table, table_length, WIDTH, rows, sizeof rows));
    for (const uint8_t *row = rows; row < rows + count * WIDTH; row += WIDTH)
        printf("read: %" PRIu32 " %.*s\n", tag_of(row), WIDTH - 4, (const char *)row + 4);
    compare("read_mapped", count, done("read_mapped", read_mapped()));
    tell("judge_map", done("judge_map", judge()));
    compare("loop", count, run_loop());
}

static int is_wrong_map(uint64_t answer) { return brawnesk_refused(answer) && brawnesk_number(answer) == BRAWNESK_WRONG_MAP; }

/* The session reads less after this. The loop does not see it, but the library refuses the map that is baked into it. */
static void give_up(const char *row, const char *label) {
    done("set_row_label", brawnesk_set_row_label(image, image_length, session, (const uint8_t *)row, strlen(row)));
    done("set_label", brawnesk_set_label(image, image_length, session, (const uint8_t *)label, strlen(label)));
    printf("set_label: %s\n", label);
    uint64_t judged = judge(), mapped = read_mapped();
    tell("judge_map", judged);
    tell("read_mapped", mapped);
    if (!is_wrong_map(judged) || !is_wrong_map(mapped))
        fail("the old map is not refused 20");
    printf("loop: still %zu\n", run_loop());
}

int main(int argc, char **argv) {
    if (argc != 4 && argc != 6)
        return fprintf(stderr, "usage: maps IMAGE TABLE USER [ROW LABEL]\n"), 2;
    image_length = load(argv[1], image, sizeof image);
    table_length = load(argv[2], table, sizeof table);
    done("open", brawnesk_open(image, image_length, (const uint8_t *)argv[3], strlen(argv[3]), session));
    enter_folder();
    bake();
    emit(stdout);
    read_all();
    if (argc == 6) {
        give_up(argv[4], argv[5]);
        bake();
        read_all();
    }
    return 0;
}
