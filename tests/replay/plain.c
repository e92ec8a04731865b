/* plain <TRACE >REPORT: the program replay once more, in plain C and written for speed; to compare with and to measure
 * against. */
#include <errno.h>
#include <stdbool.h>
#include <stdint.h>
#include <stdio.h>
#include <string.h>
#include <unistd.h>

enum {
    BLOCK = 65536,
    MAX_FRAME = 4096,
    MAX_DIGITS = 2 * MAX_FRAME,
    MAX_LINES = 1000000,
    MAX_READ_SEGMENTS = 16,
    MAX_WRITE_CHUNKS = 4,
    MAX_SEGMENTS = 16, /* of all write chunks together, and of the reply chunk */
    ENDS_WITHIN = 5,
    BAD_MARKER = 6,
    OVER_LIMIT = 7,
    LONGEST = 128, /* no line of the report is longer */
    NO_DIGIT = 16
};

static uint8_t value[256]; /* of a digit, or NO_DIGIT */
static uint8_t input[BLOCK], output[BLOCK], frame[MAX_FRAME];
static size_t written; /* bytes in output */
static size_t digits;  /* of the line that has begun; all are in frame */
static bool bad;       /* it is a bad line, whatever follows */
static uint64_t lines, accepted, refused, bad_lines, payload_sum;
static int status;

static void put_text(const char *text, size_t length)
{
    memcpy(output + written, text, length);
    written += length;
}

#define PUT(literal) put_text(literal, sizeof(literal) - 1)

static void put_number(uint64_t n)
{
    char text[20];
    size_t first = sizeof text;
    do {
        text[--first] = (char)('0' + n % 10);
        n /= 10;
    } while (n > 0);
    put_text(text + first, sizeof text - first);
}

static bool fail(const char *what)
{
    fprintf(stderr, "replay: %s: %s\n", what, strerror(errno));
    status = 1;
    return false;
}

/* Writes out what was put. */
static bool flush(void)
{
    size_t done = 0;
    while (done < written) {
        ssize_t n = write(STDOUT_FILENO, output + done, written - done);
        if (n < 0)
            return fail("the report cannot be written");
        done += (size_t)n;
    }
    written = 0;
    return true;
}

/* What is left of a frame that is read from left to right. */
struct rest {
    const uint8_t *at;
    size_t length;
};

static uint32_t word_at(const uint8_t *at)
{
    return (uint32_t)at[0] << 24 | (uint32_t)at[1] << 16 | (uint32_t)at[2] << 8 | at[3];
}

static bool skip(struct rest *rest, size_t length)
{
    if (rest->length < length)
        return false;
    rest->at += length;
    rest->length -= length;
    return true;
}

static bool take_word(struct rest *rest, uint32_t *word)
{
    if (rest->length < 4)
        return false;
    *word = word_at(rest->at);
    return skip(rest, 4);
}

static unsigned take_marker(struct rest *rest, uint32_t *marker)
{
    if (!take_word(rest, marker))
        return ENDS_WITHIN;
    return *marker > 1 ? BAD_MARKER : 0;
}

/* Takes a count, of which so many are left, and its segments. */
static unsigned take_segments(struct rest *rest, uint32_t *left)
{
    uint32_t count;
    if (!take_word(rest, &count))
        return ENDS_WITHIN;
    if (count > *left)
        return OVER_LIMIT;
    *left -= count;
    return skip(rest, 16 * (size_t)count) ? 0 : ENDS_WITHIN;
}

/* Positions may fall: 8 is never given. */
static unsigned take_read_list(struct rest *rest)
{
    uint32_t marker;
    unsigned room = MAX_READ_SEGMENTS;
    for (;;) {
        unsigned answer = take_marker(rest, &marker);
        if (answer != 0 || marker == 0)
            return answer;
        if (room-- == 0)
            return OVER_LIMIT;
        const uint8_t *entry = rest->at;
        if (!skip(rest, 20))
            return ENDS_WITHIN;
        if (word_at(entry) % 4 != 0)
            return 9;
    }
}

static unsigned take_write_list(struct rest *rest)
{
    uint32_t marker, left = MAX_SEGMENTS;
    unsigned room = MAX_WRITE_CHUNKS;
    for (;;) {
        unsigned answer = take_marker(rest, &marker);
        if (answer != 0 || marker == 0)
            return answer;
        if (room-- == 0)
            return OVER_LIMIT;
        answer = take_segments(rest, &left);
        if (answer != 0)
            return answer;
    }
}

static unsigned take_reply_chunk(struct rest *rest)
{
    uint32_t marker, left = MAX_SEGMENTS;
    unsigned answer = take_marker(rest, &marker);
    return answer != 0 || marker == 0 ? answer : take_segments(rest, &left);
}

static unsigned take_lists(struct rest *rest)
{
    unsigned answer = take_read_list(rest);
    if (answer == 0)
        answer = take_write_list(rest);
    return answer != 0 ? answer : take_reply_chunk(rest);
}

static unsigned take_error(struct rest *rest)
{
    uint32_t code;
    if (!take_word(rest, &code))
        return ENDS_WITHIN;
    if (code != 1 && code != 2)
        return 10;
    return code == 1 && !skip(rest, 8) ? ENDS_WITHIN : 0;
}

/* The answer to the frame; the payload is what is left of one that is accepted. */
static unsigned read_frame(size_t length, size_t *payload)
{
    struct rest rest = {frame, length};
    unsigned answer;
    *payload = 0;
    if (!skip(&rest, 16))
        return 1;
    if (word_at(frame + 4) != 1)
        return 2;
    switch (word_at(frame + 12)) {
    case 0:
        answer = take_lists(&rest);
        if (answer == 0)
            *payload = rest.length;
        return answer;
    case 1:
        answer = take_lists(&rest);
        break;
    case 3:
        return 4;
    case 4:
        answer = take_error(&rest);
        break;
    default:
        return 3;
    }
    return answer == 0 && rest.length > 0 ? 11 : answer;
}

/* No reply to a frame that is too short or an ERROR itself, as all that get 10 are. */
static void put_reply(unsigned answer, size_t length)
{
    if (length < 16 || word_at(frame + 12) == 4 || answer == 0 || answer == 4)
        PUT(" none\n");
    else if (answer == 2)
        PUT(" vers\n");
    else
        PUT(" chunk\n");
}

static void end_line(void)
{
    put_number(++lines);
    if (bad || digits % 2 != 0) {
        PUT(" bad\n");
        bad_lines++;
    } else {
        size_t payload;
        unsigned answer = read_frame(digits / 2, &payload);
        PUT(" ");
        put_number(answer);
        PUT(" ");
        put_number(payload);
        put_reply(answer, digits / 2);
        if (answer == 0)
            accepted++;
        else
            refused++;
        payload_sum += payload;
    }
    digits = 0;
    bad = false;
}

/* Takes digits up to the line's or the block's end, or up to what makes the line bad. */
static const uint8_t *take_digits(const uint8_t *at, const uint8_t *end)
{
    /* The other half of a byte that the last block began. */
    if (digits % 2 != 0 && value[*at] != NO_DIGIT)
        frame[digits++ / 2] |= value[*at++];
    if (digits % 2 == 0) {
        uint8_t *to = frame + digits / 2;
        size_t room = (size_t)(frame + MAX_FRAME - to), pairs = (size_t)(end - at) / 2;
        const uint8_t *last = at + 2 * (pairs < room ? pairs : room);
        while (at < last) {
            unsigned high = value[at[0]], low = value[at[1]];
            if ((high | low) >= NO_DIGIT)
                break;
            *to++ = (uint8_t)(high << 4 | low);
            at += 2;
        }
        digits = 2 * (size_t)(to - frame);
        if (at < end && digits < MAX_DIGITS && value[*at] != NO_DIGIT)
            frame[digits++ / 2] = (uint8_t)(value[*at++] << 4);
    }
    bad = at < end && *at != '\n';
    return at;
}

/* Reports the lines that end in a block, and says whether the report goes on. */
static bool feed(const uint8_t *at, const uint8_t *end)
{
    while (at < end) {
        if (lines == MAX_LINES) {
            PUT("too long\n");
            flush();
            return false;
        }
        if (!bad)
            at = take_digits(at, end);
        if (bad) {
            at = memchr(at, '\n', (size_t)(end - at));
            if (at == NULL)
                break;
        }
        if (at == end)
            break;
        at++;
        end_line();
        if (BLOCK - written < LONGEST && !flush())
            return false;
    }
    return flush();
}

static void put_sums(void)
{
    PUT("accepted ");
    put_number(accepted);
    PUT(" refused ");
    put_number(refused);
    PUT(" bad ");
    put_number(bad_lines);
    PUT(" payload ");
    put_number(payload_sum);
    PUT("\n");
}

int main(void)
{
    ssize_t n;
    memset(value, NO_DIGIT, sizeof value);
    for (uint8_t i = 0; i < 10; i++)
        value['0' + i] = i;
    for (uint8_t i = 0; i < 6; i++)
        value['a' + i] = value['A' + i] = (uint8_t)(10 + i);
    PUT("frame answer payload reply\n");
    if (!flush())
        return status;
    while ((n = read(STDIN_FILENO, input, sizeof input)) > 0)
        if (!feed(input, input + n))
            return status;
    if (n < 0) {
        fail("the trace cannot be read");
        return status;
    }
    /* A line has begun if it has a digit, or something else that made it bad. */
    if (digits > 0 || bad)
        end_line();
    put_sums();
    flush();
    return status;
}
