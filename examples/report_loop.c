/* Prints the rows of a table that a user's session may read: report_loop IMAGE TABLE USER */
#include <brawnesk.h>
#include <stdio.h>
#include <stdlib.h>
#include <string.h>

/* A row of the sample table: a tag of 4 bytes and a text of 12. */
enum { WIDTH = 16 };

/* One byte more than the longest image, and than 4,096 rows: a longer file is refused, 1 or 12. */
static uint8_t image[65537], table[65537], rows[sizeof table];
static size_t image_length, table_length;

static unsigned tag(const uint8_t *row) {
    return row[0] | (unsigned)row[1] << 8 | (unsigned)row[2] << 16 | (unsigned)row[3] << 24;
}

static uint64_t report(const char *user) {
    uint8_t session[BRAWNESK_SESSION];
    uint64_t answer = brawnesk_open(image, image_length, (const uint8_t *)user, strlen(user), session);
    if (!brawnesk_refused(answer))
        answer = brawnesk_read(image, image_length, session, table, table_length, WIDTH, rows, sizeof rows);
    if (!brawnesk_refused(answer))
        for (const uint8_t *row = rows; row < rows + answer * WIDTH; row += WIDTH)
            printf("%u %.*s\n", tag(row), WIDTH - 4, (const char *)row + 4);
    return answer;
}

static size_t load(const char *path, uint8_t *bytes, size_t room) {
    FILE *file = fopen(path, "rb");
    if (!file) {
        perror(path);
        exit(1);
    }
    size_t length = fread(bytes, 1, room, file);
    fclose(file);
    return length;
}

int main(int argc, char **argv) {
    if (argc != 4)
        return fprintf(stderr, "usage: report_loop IMAGE TABLE USER\n"), 2;
    image_length = load(argv[1], image, sizeof image);
    table_length = load(argv[2], table, sizeof table);
    uint64_t answer = report(argv[3]);
    if (!brawnesk_refused(answer))
        return 0;
    printf("refused %u\n", brawnesk_number(answer));
    return 1;
}
