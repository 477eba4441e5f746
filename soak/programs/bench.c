/* What a usual benchmark of statements does, over and over: records that are copied, texts that are compared, calls by
 * value and by address, arrays, pointers, branches. Each round's results go into the next. */
#include "small.h"

enum kind { FIRST, SECOND, THIRD, FOURTH, FIFTH };

struct record {
    struct record *next;
    enum kind kind;
    int16 count;
    char name[31];
};

static struct record records[2];
static int16 table[50], square[20][20], global;
static char letter_one, letter_two;
static byte flag;

static enum kind kind_after(enum kind one) {
    switch (one) {
    case FIRST: return THIRD;
    case SECOND: return global > 100 ? FIRST : FOURTH;
    case THIRD: return SECOND;
    case FOURTH: return THIRD;
    default: return FIRST;
    }
}

static int16 is_text_behind(const char *one, const char *other) {
    int16 at = 0;
    while (one[at] && one[at] == other[at]) at++;
    return one[at] - other[at];
}

static void set_text(char *to, const char *given) {
    while ((*to++ = *given++)) {}
}

static void change_places(int16 *row, int16 (*all)[20], int16 at, int16 with) {
    int16 place = (int16)(at + 5), next;
    row[place] = with;
    row[place + 1] = row[place];
    row[place + 30] = place;
    for (next = place; next <= place + 1; next++) all[place][next] = place;
    all[place][place - 1]++;
    all[place + 8][place] = row[place];
    global = 5;
}

static void change_record(struct record *one) {
    struct record *next = one->next;
    *next = *one;
    next->count = (int16)(one->count + 5);
    next->next = one->next;
    if (next->kind == FIRST) {
        next->count = 6;
        next->kind = kind_after(one->kind);
    } else {
        *one = *next;
        one->next = next;
    }
}

static int16 sum_of(int16 one, int16 other, int16 *result) {
    int16 sum = (int16)(one + 2 + other);
    *result = sum;
    return (int16)(sum & 7);
}

int main(void) {
    char one[31], other[31];
    int16 round, a, b, c, at;
    records[0].next = &records[1];
    records[0].kind = THIRD;
    records[0].count = 40;
    set_text(records[0].name, "a text of thirty characters, 1");
    set_text(one, "a text of thirty characters, 1");
    table[8 + 5] = 10;
    for (round = 1; round <= 1500; round++) {
        letter_one = 'A';
        flag = letter_one == 'A' || letter_two == 'B';
        letter_two = 'B';
        a = 2;
        b = 3;
        set_text(other, round & 1 ? "a text of thirty characters, 2" : "a text of thirty characters, 0");
        flag = (byte)(is_text_behind(one, other) > 0);
        while (a < b) {
            c = (int16)(5 * a - b);
            at = sum_of(a, b, &c);
            a = (int16)(a + 1 + (at == 99));
        }
        change_places(table, square, (int16)(round % 7), c);
        change_record(&records[0]);
        records[0].count = (int16)(records[0].count + flag);
        b = (int16)(b * a);
        a = (int16)(b / (c ? c : 1));
        b = (int16)(7 * (b - c) - a);
        records[0].kind = kind_after(records[0].kind);
        global = (int16)(global + b);
    }
    text("global ");
    number(global);
    text(", flag ");
    number(flag);
    text(", a b c ");
    number(a);
    put(' ');
    number(b);
    put(' ');
    number(c);
    text("\nrecord ");
    number(records[0].kind);
    put(' ');
    number(records[0].count);
    put(' ');
    text(records[1].name);
    text("\ntables ");
    hexadecimal(checksum(table, sizeof table), 8);
    put(' ');
    hexadecimal(checksum(square, sizeof square), 8);
    put('\n');
    return 0;
}
