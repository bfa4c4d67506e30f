/* The ESC telemetry unit's calls for C: link libc_calls.a, which `tools/build c_calls` writes.
 *
 * A slice is a pointer and a length, counted in elements. No pointer is null, also where the length is 0, and what a
 * call writes to overlaps nothing else that it is lent. Beyond that nothing is asked of the caller: a call that
 * can't be done is refused by its number, and then everything that was lent stays as it was found.
 */
#ifndef ESC_UNIT_H
#define ESC_UNIT_H

#include <stdbool.h>
#include <stddef.h>
#include <stdint.h>

#ifdef __cplusplus
extern "C" {
#endif

/* What a call that can be refused answers. Where several numbers apply, the lowest is given. */
enum {
    ESC_ACCEPTED = 0,
    ESC_LENGTH = 5,      /* a frame that is not ten bytes, a map that is not four, samples' bytes that are no multiple of 22 */
    ESC_LANE = 6,        /* a lane above 3, that of a sample too; a motor that is not 1 to 4 */
    ESC_SPACE = 9,       /* a lent output that is too short for all that is written */
    ESC_CHECK_BYTE = 10, /* a frame's tenth byte that is not the CRC of the nine */
    ESC_MAGNETS = 11,    /* a count of magnets that is zero or odd */
    ESC_MAP = 12         /* a map that does not hold each of 1 to 4 once */
};

/* How many bytes a frame has, how many fields, and how many counts a parser keeps. */
enum { ESC_FRAME_BYTES = 10, ESC_FRAME_FIELDS = 5, ESC_PARSER_COUNTS = 3 };

/* How many characters an answer takes at most, its LF included. */
enum { ESC_ANSWER_CHARACTERS = 87 };

/* How many bytes a lent sample has, how many samples a page of the paper sheet, and how many characters. */
enum { ESC_SAMPLE_BYTES = 22, ESC_PAGE_SAMPLES = 40, ESC_PAGE_CHARACTERS = 2214 };

/* A whole session: a record in hexadecimal (0-9, a-f, A-F) on each line of `text`, an answer on a line of `out` for each,
 * its letters small.
 * 0, and `*count` is how many characters were written; the rest of `out` stays as it was. Or 9. */
uint8_t esc_unit_session(const uint8_t *text, size_t len, uint8_t *out, size_t room, size_t *count);

/* The CRC-8 of any bytes: polynomial 07, start 0, highest bit first. Never refused. */
uint8_t esc_crc8(const uint8_t *bytes, size_t len);

/* Reads a frame. 0, and the first five of `fields` are temperature in C, voltage in 0.01 V, current in 0.01 A,
 * consumption in mAh and eRPM / 100; the rest stays as it was. Or 5, 9, 10. */
uint8_t esc_frame_read(const uint8_t *frame, size_t len, uint16_t *fields, size_t room);

/* Writes a frame. 0, and the first ten of `out` are its bytes; the rest stays as it was. Or 9. */
uint8_t esc_frame_write(uint8_t temperature_c, uint16_t voltage_cv, uint16_t current_ca, uint16_t consumption_mah,
                        uint16_t erpm_div100, uint8_t *out, size_t room);

/* Feeds a stream to a new parser. 0, and for each byte its place in `gave` is 1 where it gave a sample, else 0. The
 * sample's fields stand in `fields` from five times that place on; where there is no sample these five stay as they
 * were. The first three of `counts` are the valid frames, the CRC failures and the discarded bytes.
 * Or 9: `gave` needs a place for each byte, `fields` five, `counts` three in all. */
uint8_t esc_stream_parse(const uint8_t *bytes, size_t len, uint8_t *gave, size_t marks, uint16_t *fields, size_t room,
                         uint32_t *counts, size_t n);

/* Searches a capture: where the first good frame starts, ten bytes of which the last is the CRC-8 of the nine before
 * it; or `len` where there is none. Never refused. */
size_t esc_find_frame(const uint8_t *capture, size_t len);

/* Whether `duration_ms` has passed from `start_ms` to `now_ms`, on a clock that wraps at 2^64. Never refused. */
bool esc_elapsed_at_least(uint64_t start_ms, uint64_t now_ms, uint32_t duration_ms);

/* A motor's speed. 0, and `*rpm` is its turns in a minute, rounded down: eRPM / 100 times 200 over the magnets.
 * Or 11. */
uint8_t esc_motor_speed(uint16_t erpm_div100, uint8_t magnets, uint32_t *rpm);

/* The board map's four bytes are the motors, 1 to 4, of lanes 0 to 3. From a lane to its motor: 0 and `*motor`; or 5,
 * 6, 12. */
uint8_t esc_motor_of_lane(const uint8_t *map, size_t len, uint8_t lane, uint8_t *motor);

/* From a motor to its lane: 0 and `*lane`; or 5, 6, 12. */
uint8_t esc_lane_of_motor(const uint8_t *map, size_t len, uint8_t motor, uint8_t *lane);

/* The paper sheet of delivered samples, in their order. `samples` has 22 bytes for each, one sample behind the other, as
 * an answer has them: lane, sequence (4), observed time (8), the nine of the frame, numbers highest byte first. `map` is
 * the board map's four bytes.
 * 0, and `*written` is how many characters the sheet has: 2214 for each page, which holds 40 samples; no samples give one
 * page. They are the first of `out`, and the rest stays as it was. Or 5, 6, 9, 11, 12. */
uint8_t esc_sheet(const uint8_t *samples, size_t len, const uint8_t *map, size_t map_len, uint8_t magnets, uint8_t *out,
                  size_t room, size_t *written);

#ifdef __cplusplus
}
#endif

#endif
