/* Every call of include/esc_unit.h: a session on standard input, then vectors of crates/vectors and document 01, and a sheet. */
#include "esc_unit.h"

#include <stdio.h>
#include <stdlib.h>

enum { TEXT_ROOM = 4096, ANSWERS_ROOM = 100 * ESC_ANSWER_CHARACTERS };

static const uint8_t cruise[ESC_FRAME_BYTES] = {0x19, 0x06, 0x90, 0x04, 0xd2, 0x02, 0x37, 0x04, 0xd2, 0xbc};

static void fail(const char *what)
{
    fprintf(stderr, "example: %s\n", what);
    exit(1);
}

static void print_hex(const uint8_t *bytes, size_t len)
{
    for (size_t i = 0; i < len; i++)
        printf("%02x", bytes[i]);
}

static void print_fields(const uint16_t *fields)
{
    printf("%u %u %u %u %u", fields[0], fields[1], fields[2], fields[3], fields[4]);
}

static void session(void)
{
    static uint8_t text[TEXT_ROOM + 1], answers[ANSWERS_ROOM];
    size_t len = fread(text, 1, sizeof text, stdin), count = 0;
    if (ferror(stdin))
        fail("standard input can't be read");
    if (len > TEXT_ROOM)
        fail("the session is too long for this example");
    if (esc_unit_session(text, len, answers, sizeof answers, &count) == ESC_SPACE)
        fail("the answers are too long for this example");
    fwrite(answers, 1, count, stdout);
}

static void crc(void)
{
    static const uint8_t digits[] = {'1', '2', '3', '4', '5', '6', '7', '8', '9'};
    printf("crc8 digits: %02x\n", esc_crc8(digits, sizeof digits));
}

/* A frame that is read is written again as it was. */
static void frame(const char *name, const uint8_t *bytes, size_t len)
{
    uint16_t f[ESC_FRAME_FIELDS];
    uint8_t written[ESC_FRAME_BYTES];
    uint8_t number = esc_frame_read(bytes, len, f, ESC_FRAME_FIELDS);
    printf("frame %s: ", name);
    if (number != ESC_ACCEPTED) {
        printf("refused %u\n", number);
        return;
    }
    print_fields(f);
    if (esc_frame_write((uint8_t)f[0], f[1], f[2], f[3], f[4], written, sizeof written) != ESC_ACCEPTED)
        fail("a frame has no room");
    printf(", written ");
    print_hex(written, sizeof written);
    printf("\n");
}

static void frames(void)
{
    static const uint8_t wrong[ESC_FRAME_BYTES] = {0, 0, 0, 0, 0, 0, 0, 0, 0x1e, 0x5b};
    frame("cruise", cruise, sizeof cruise);
    frame("wrong check byte", wrong, sizeof wrong);
    frame("nine bytes", cruise, 9);
}

static void stream(void)
{
    static const uint8_t bytes[22] = {0x19, 0x06, 0x90, 0x04, 0xd2, 0x02, 0x37, 0x04, 0xd2, 0xbc, 0x13,
                                      0x37, 1,    2,    3,    4,    5,    6,    7,    8,    9,    0x85};
    uint8_t gave[sizeof bytes];
    uint16_t fields[ESC_FRAME_FIELDS * sizeof bytes];
    uint32_t counts[ESC_PARSER_COUNTS];
    if (esc_stream_parse(bytes, sizeof bytes, gave, sizeof gave, fields, ESC_FRAME_FIELDS * sizeof bytes, counts,
                         ESC_PARSER_COUNTS) != ESC_ACCEPTED)
        fail("a stream has no room");
    for (size_t i = 0; i < sizeof bytes; i++) {
        if (!gave[i])
            continue;
        printf("stream noise between: at %u: ", (unsigned)i + 1);
        print_fields(fields + ESC_FRAME_FIELDS * i);
        printf("\n");
    }
    printf("stream noise between: counts %u %u %u\n", (unsigned)counts[0], (unsigned)counts[1], (unsigned)counts[2]);
}

static void capture(const char *name, const uint8_t *bytes, size_t len)
{
    size_t start = esc_find_frame(bytes, len);
    if (start == len)
        printf("capture %s: none\n", name);
    else
        printf("capture %s: %u\n", name, (unsigned)start);
}

static void captures(void)
{
    static const uint8_t before[] = {0xff, 0, 0x5a, 0x19, 0x06, 0x90, 0x04, 0xd2, 0x02, 0x37, 0x04, 0xd2, 0xbc};
    static const uint8_t overlapping[] = {0xff, 1, 2, 3, 4, 5, 6, 7, 8, 9, 0x85, 0x68};
    capture("noise before", before, sizeof before);
    capture("nine bytes", cruise, 9);
    capture("two that overlap", overlapping, sizeof overlapping);
}

static void due(uint64_t start, uint64_t now, uint32_t duration)
{
    printf("Due(%llu, %llu, %lu): %s\n", (unsigned long long)start, (unsigned long long)now, (unsigned long)duration,
           esc_elapsed_at_least(start, now, duration) ? "yes" : "no");
}

static void times(void)
{
    due(0, 20, 20);
    due(0, 19, 20);
    due(5, 4, 1);
    due(UINT64_MAX, 5, 10);
}

static void print_or_dash(uint8_t refused, uint8_t value)
{
    if (refused)
        printf(" -");
    else
        printf(" %u", value);
}

/* Each lane's motor and each motor's lane, and the numbers next to them. */
static void board_map(const uint8_t *map, size_t len)
{
    uint8_t found = 0;
    uint8_t number = esc_motor_of_lane(map, len, 0, &found);
    printf("map ");
    print_hex(map, len);
    if (number != ESC_ACCEPTED) {
        printf(": refused %u\n", number);
        return;
    }
    printf(": lanes");
    for (uint8_t lane = 0; lane < 5; lane++) {
        number = esc_motor_of_lane(map, len, lane, &found);
        print_or_dash(number, found);
    }
    printf(", motors");
    for (uint8_t motor = 0; motor < 6; motor++) {
        number = esc_lane_of_motor(map, len, motor, &found);
        print_or_dash(number, found);
    }
    printf("\n");
}

static void board_maps(void)
{
    static const uint8_t mixed[] = {3, 1, 4, 2}, short_of_one[] = {1, 2, 3}, twice[] = {1, 2, 3, 3};
    board_map(mixed, sizeof mixed);
    board_map(short_of_one, sizeof short_of_one);
    board_map(twice, sizeof twice);
}

static void speed(uint16_t erpm_div100, uint8_t magnets)
{
    uint32_t rpm = 0;
    uint8_t number = esc_motor_speed(erpm_div100, magnets, &rpm);
    if (number != ESC_ACCEPTED)
        printf("speed refused %u %u %u\n", number, erpm_div100, magnets);
    else
        printf("speed %u %u %lu\n", erpm_div100, magnets, (unsigned long)rpm);
}

/* Row one and the row of the reading of arm 3, from docs/four-arms.txt. */
static void sheet(uint8_t magnets)
{
    static const uint8_t sample[ESC_SAMPLE_BYTES] = {3, 0, 0, 0, 3, 0, 0, 0, 0, 0, 0, 0x16, 0x21, 0x39, 0x06, 0x2b, 0x01, 0x92,
                                                     0, 0xe7, 0, 0x51};
    static const uint8_t map[] = {4, 2, 1, 3};
    static uint8_t page[ESC_PAGE_CHARACTERS];
    size_t written = 0;
    uint8_t number = esc_sheet(sample, sizeof sample, map, sizeof map, magnets, page, sizeof page, &written);
    if (number != ESC_ACCEPTED) {
        printf("sheet: refused %u\n", number);
        return;
    }
    printf("sheet: %lu characters\n", (unsigned long)written);
    for (int row = 0; row < 2; row++)
        printf("sheet |%.53s|\n", (const char *)page + 54 * row);
}

int main(void)
{
    session();
    crc();
    frames();
    stream();
    captures();
    times();
    board_maps();
    speed(70, 14);
    speed(70, 13);
    sheet(14);
    sheet(13);
    if (fflush(stdout) != 0 || ferror(stdout))
        fail("standard output can't be written");
    return 0;
}
