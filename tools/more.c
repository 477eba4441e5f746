/* The calls of p11_more.h, over those of pdp1140.h: words of memory in lines of the console, and steps up to an address. */
#include "p11_more.h"

enum { IO_PAGE = 0760000, MOST_EXAMINED = 512, MOST_DEPOSITED = 64, MOST_TURNS = 100000000 };
/* The longest answer and the longest line: 512 lines of `EXAM 000000 000000`, and 64 words behind `deposit 777777`. */
enum { ANSWER = MOST_EXAMINED * 20, LINE = 32 + MOST_DEPOSITED * 7 };

int32_t p11_steps_until(struct p11_handle *handle, const uint16_t *addresses, size_t count, uint32_t most,
                        struct p11_run_told *run) {
    uint8_t is_wanted[65536 / 8] = {0};
    uint32_t made = 0;
    if (most == 0 || most > MOST_TURNS) return P11_TOO_MANY;
    for (size_t at = 0; at < count; at++) is_wanted[addresses[at] >> 3] |= 1u << (addresses[at] & 7);
    do {
        int32_t status = p11_run(handle, 1, 0, run);
        if (status != P11_DONE) return status;
        made += run->turns;
        if (run->reason != P11_TURNS) break;
        if (is_wanted[run->pc >> 3] >> (run->pc & 7) & 1) {
            run->reason = P11_AT;
            break;
        }
    } while (made < most);
    run->turns = made;
    return P11_DONE;
}

/* How many words of a row go into one line: one on the I/O page, and in front of it those that lie there, at most `most`. */
static size_t in_a_line(uint32_t address, size_t left, size_t most) {
    size_t room = address >= IO_PAGE ? 1 : (IO_PAGE - address + 1) / 2;
    if (left < most) most = left;
    return room < most ? room : most;
}

/* Text of a line that is being made: a word behind it, and a number in octal or decimal digits with a blank in front of it. */
struct line {
    char text[LINE];
    size_t length;
};

static void put_text(struct line *line, const char *text) {
    while (*text) line->text[line->length++] = *text++;
}

static void put_number(struct line *line, uint32_t number, uint32_t base) {
    uint32_t unit = 1;
    while (number / unit >= base) unit *= base;
    line->text[line->length++] = ' ';
    for (; unit > 0; unit /= base) line->text[line->length++] = (char)('0' + number / unit % base);
}

/* Does a line, and hands out its answer, which isn't longer than ANSWER, with a 0 behind it. */
static int32_t answer_of(struct p11_handle *handle, const struct line *line, char answer[ANSWER + 1]) {
    size_t length;
    int32_t status = p11_line(handle, (const uint8_t *)line->text, line->length);
    if (status == P11_DONE) status = p11_answer(handle, (uint8_t *)answer, ANSWER, &length);
    if (status == P11_DONE) answer[length] = 0;
    return status;
}

/* The words of an answer to `examine`, the last of each line; whether it isn't a refusal. */
static int are_shown(const char *answer, uint16_t *words) {
    if (*answer != 'E') return 0;
    for (uint16_t word = 0; *answer; answer++) {
        if (*answer == '\n') *words++ = word;
        word = *answer >= '0' && *answer <= '7' ? (uint16_t)(word << 3 | (*answer - '0')) : 0;
    }
    return 1;
}

int32_t p11_words(struct p11_handle *handle, uint32_t address, uint16_t *words, size_t count, size_t *done) {
    char answer[ANSWER + 1];
    *done = 0;
    while (*done < count) {
        size_t part = in_a_line(address, count - *done, MOST_EXAMINED);
        struct line line = {.length = 0};
        put_text(&line, "examine");
        put_number(&line, address, 8);
        put_number(&line, (uint32_t)part, 10);
        int32_t status = answer_of(handle, &line, answer);
        if (status != P11_DONE) return status;
        if (!are_shown(answer, words + *done)) return P11_NO_WORDS;
        *done += part;
        address += 2 * (uint32_t)part;
    }
    return P11_DONE;
}

int32_t p11_put_words(struct p11_handle *handle, uint32_t address, const uint16_t *words, size_t count, size_t *done) {
    char answer[ANSWER + 1];
    *done = 0;
    while (*done < count) {
        size_t part = in_a_line(address, count - *done, MOST_DEPOSITED);
        struct line line = {.length = 0};
        put_text(&line, "deposit");
        put_number(&line, address, 8);
        for (size_t at = 0; at < part; at++) put_number(&line, words[*done + at], 8);
        int32_t status = answer_of(handle, &line, answer);
        if (status != P11_DONE) return status;
        if (*answer != 'O') return P11_NO_WORDS;
        *done += part;
        address += 2 * (uint32_t)part;
    }
    return P11_DONE;
}
