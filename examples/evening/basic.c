/* A BASIC of whole numbers and strings: its prompt. BASIC.md describes it. */
#include "basic.h"
#include "talk.h"

/* Takes a line that begins with a number into the program. */
static void keep(const char *typed) {
    int16 n;
    at = typed;
    n = digits();
    if (failed) return;
    if (!n) fail("A line can't have the number 0", "Number lines from 1 to 32767, as 10, 20, 30");
    else {
        blanks();
        put_line((uint16)n, at);
        forget();
    }
}

static void obey(char *typed) {
    failed = column = 0;
    line = 0;
    capitals(typed);
    at = typed;
    if (digit_ahead()) keep(at);
    else run();
    if (column) type('\n');
}

int main(void) {
    static char typed[LINE];
    new_program();
    text("BASIC, ");
    number(free_bytes());
    text(" bytes free. HELP lists its words; BYE goes to the menu.\n");
    while (!is_over) {
        text("> ");
        if (read_line(typed, LINE) > 0) obey(typed);
    }
    return 0;
}
