/* Statements. Where the interpreter reads is `at`: in the line that was typed, or in a line of the program. */
#include "basic.h"
#include "catalogue.h"
#include "talk.h"

#define FRAMES 24
#define ZONE 14
#define LAST_ZONE (4 * ZONE)
#define SUBROUTINE 0xffff
#define LAST 32767

/* A FOR that isn't done, or a GOSUB: where its statement ends; the variable, or SUBROUTINE. */
static struct frame {
    uint16 line, variable;
    const char *behind;
    int16 limit, step;
} frames[FRAMES];
static int16 open_frames;

const char *at;
uint16 line;
int16 failed, column, is_over;
/* Whether the statements end here; whether one may begin here, as after a colon. */
static int16 ended, may_begin;
/* Where READ reads: a line of the program and the place in it, or 0 before the first DATA. */
static uint16 data_line;
static const char *data_at;

void type(char c) {
    put(c);
    column = (int16)(c == '\n' || c == '\r' ? 0 : c == '\b' ? column - (column > 0) : column + (c >= ' '));
}

void type_text(const char *from) {
    while (*from) type(*from++);
}

void type_number(int16 n) {
    uint16 left = n < 0 ? (uint16)(0u - (uint16)n) : (uint16)n, power = 10000;
    if (n < 0) type('-');
    while (power > 1 && left < power) power /= 10;
    for (; power; power /= 10) type((char)('0' + left / power % 10));
}

static void in_line(void) {
    if (line) {
        type_text(" in line ");
        type_number((int16)line_number(line));
    }
    type_text(".\n");
}

void fail(const char *what, const char *instead) {
    if (failed) return;
    failed = 1;
    if (column) type('\n');
    type_text("? ");
    type_text(what);
    in_line();
    type_text("  ");
    type_text(instead);
    type_text(".\n");
}

static void stop(const char *how) {
    ended = 1;
    if (column) type('\n');
    type_text(how);
    in_line();
}

static void end_of_line(void) {
    while (*at) at++;
}

/* Whether a statement ends here. */
static int16 at_end(void) {
    const char *here;
    int16 is_else;
    blanks();
    here = at;
    is_else = word("ELSE");
    at = here;
    return !*at || *at == ':' || *at == '\'' || is_else;
}

/* Goes on to the line of an address, or ends at the program's end. */
static void go_to_line(uint16 to) {
    line = to;
    if (line >= program_end) ended = 1;
    else at = line_text(line);
    may_begin = 1;
}

static void jump(int16 wanted) {
    uint16 found = line_from((uint16)wanted);
    if (failed) return;
    if (wanted < 1 || found >= program_end || line_number(found) != (uint16)wanted)
        fail("There is no line of this number", "Write one that LIST shows: GOTO 10");
    else go_to_line(found);
}

/* Steps over text until one of the words begins outside of strings; 1 or 2 says which, 0 that the line ends before. What
 * stands behind REM and DATA is no word. */
static int16 skip_to(const char *first, const char *second) {
    for (;;) {
        blanks();
        if (!*at) return 0;
        if (*at == '"') {
            for (at++; *at && *at != '"';) at++;
            if (*at) at++;
        } else if (*at == '\'' || word("REM")) end_of_line();
        else if (word(first)) return 1;
        else if (second && word(second)) return 2;
        else if (word("DATA")) while (*at && *at != ':') at++;
        else at++;
    }
}

/* The same from line to line. */
static int16 find_word(const char *first, const char *second) {
    for (;;) {
        int16 found = skip_to(first, second);
        if (found) return found;
        if (!line) return 0;
        line = line_behind(line);
        if (line >= program_end) return 0;
        at = line_text(line);
    }
}

static void print_number(int16 n) {
    if (n >= 0) type(' ');
    type_number(n);
    type(' ');
}

static void print_tab(void) {
    int16 wanted = sign('(') ? value() : -1;
    if (failed) return;
    if (wanted < 0 || wanted > 255 || !sign(')')) fail("TAB wants a column", "Write TAB(20)");
    else while (column < wanted) type(' ');
}

static void print_value(void) {
    int16 n;
    uint16 each;
    pool_end = 0;
    if (!value_or_string(&n)) {
        if (!failed) print_number(n);
        return;
    }
    for (each = 0; !failed && each < pool_end; each++) type(pool[each]);
    pool_end = 0;
}

/* Goes to the next of the five columns, or to a new line behind the last of them. */
static void next_zone(void) {
    if (column >= LAST_ZONE) type('\n');
    else do type(' ');
        while (column % ZONE);
}

static void print(void) {
    int16 stays = 0;
    while (!failed && !at_end()) {
        stays = 1;
        if (sign(';')) continue;
        if (sign(',')) {
            next_zone();
            continue;
        }
        stays = 0;
        if (word("TAB")) {
            print_tab();
            stays = 1;
        } else print_value();
    }
    if (!failed && !stays) type('\n');
}

static void assign(void) {
    int16 is_string, n;
    uint16 place = variable(&is_string);
    if (failed) return;
    if (!sign('=')) {
        fail("BASIC doesn't understand this", "Write A=5 or a word that HELP lists");
        return;
    }
    if (is_string) {
        uint16 start;
        if (!string_ahead()) {
            fail("A number stands where a string has to be", "Write A$=\"TEXT\", or A$=STR$(5)");
            return;
        }
        start = string();
        if (!failed) store_string(place, start);
        return;
    }
    n = value();
    if (!failed) set_word(place, (uint16)n);
}

/* A string from text that is typed, up to its end, or stands in DATA, up to a comma or a colon; in quotes, up to the second.
 * FROM is behind it then. */
static uint16 item(const char **from, int16 is_data) {
    uint16 start = pool_end;
    const char *c = *from;
    while (*c == ' ') c++;
    if (*c == '"') {
        for (c++; *c && *c != '"'; c++) pool[pool_end++] = *c;
        if (*c) c++;
        while (*c == ' ') c++;
    } else {
        while (*c && !(is_data && (*c == ',' || *c == ':'))) pool[pool_end++] = *c++;
        while (pool_end > start && pool[pool_end - 1] == ' ') pool_end--;
    }
    *from = c;
    return start;
}

/* Stores an item in a variable; 0 if it has to be a number and isn't. */
static int16 store_item(uint16 place, int16 is_string, uint16 start) {
    const char *from = pool_text(start);
    int16 n;
    if (is_string) {
        store_string(place, start);
        return 1;
    }
    pool_end = start;
    if (!read_number(&from, &n)) return 0;
    while (*from == ' ') from++;
    if (*from) return 0;
    set_word(place, (uint16)n);
    return 1;
}

/* Asks for what a variable wants, until it is that. */
static void ask(void) {
    static char typed[LINE];
    static const char *left;
    int16 is_string;
    uint16 place = variable(&is_string);
    while (!failed && !ended) {
        type_text("? ");
        if (read_line(typed, LINE) < 0) {
            column = 0;
            stop("Stopped");
            return;
        }
        column = 0;
        left = typed;
        if (store_item(place, is_string, item(&left, 0)) && !*left) return;
        if (!failed) type_text(is_string ? "Nothing behind the quote, please.\n" : "A number from -32768 to 32767, please.\n");
    }
}

static void input(void) {
    blanks();
    if (*at == '"') {
        uint16 start = string();
        type_text(pool_text(start));
        pool_end = start;
        if (!sign(';') && !sign(',')) fail("A ; is missing", "Write INPUT \"YOUR NAME\";A$");
    }
    do ask();
    while (!failed && !ended && sign(','));
}

static void line_or_statements(void) {
    if (digit_ahead()) jump(digits());
    else may_begin = 1;
}

/* Behind a condition that doesn't hold: goes to the ELSE of this IF, or to the line's end. */
static void skip_then(void) {
    int16 inner = 0, found;
    while ((found = skip_to("IF", "ELSE")) != 0) {
        if (found == 1) inner++;
        else if (!inner--) {
            line_or_statements();
            return;
        }
    }
}

static void if_then(void) {
    int16 holds = value();
    const char *behind = at;
    if (failed) return;
    if (word("GOTO")) at = behind;
    else if (!word("THEN")) {
        fail("THEN is missing", "Write IF A=1 THEN PRINT \"ONE\", or IF A=1 THEN 100");
        return;
    }
    if (holds) line_or_statements();
    else skip_then();
}

static struct frame *new_frame(uint16 variable) {
    struct frame *made = frames + open_frames;
    if (open_frames == FRAMES) {
        fail("Too many GOSUB or FOR are open", "End each GOSUB by RETURN, and each FOR by NEXT");
        return 0;
    }
    open_frames++;
    made->variable = variable;
    made->line = line;
    made->behind = at;
    return made;
}

static void go_back(const struct frame *to) {
    line = to->line;
    at = to->behind;
}

static void go_sub(int16 wanted) {
    if (!failed && new_frame(SUBROUTINE)) jump(wanted);
}

static void go_sub_statement(void) {
    int16 wanted = value();
    go_sub(wanted);
}

static void return_statement(void) {
    while (open_frames && frames[open_frames - 1].variable != SUBROUTINE) open_frames--;
    if (!open_frames) fail("RETURN comes without a GOSUB", "Write END in front of the subroutine");
    else go_back(frames + --open_frames);
}

/* The place of a FOR of a variable that is open in this subroutine, counted from 1, or 0; any FOR if ANY. */
static int16 open_for(uint16 variable, int16 any) {
    int16 found;
    for (found = open_frames; found && frames[found - 1].variable != SUBROUTINE; found--)
        if (any || frames[found - 1].variable == variable) return found;
    return 0;
}

/* Goes behind the NEXT of a FOR that has nothing to do. */
static void skip_loop(void) {
    uint16 from = line;
    int16 inner = 1, found;
    while (inner && (found = find_word("FOR", "NEXT")) != 0) inner += found == 1 ? 1 : -1;
    if (inner) {
        line = from;
        fail("FOR comes without its NEXT", "Write NEXT I at the end of the loop of FOR I");
        return;
    }
    while (!at_end()) at++;
}

static void for_statement(void) {
    int16 is_string, first, limit, step = 1, found;
    uint16 place = variable(&is_string);
    struct frame *frame;
    if (failed) return;
    if (is_string || place >= STRINGS || !sign('=')) {
        fail("FOR wants a variable for numbers", "Write FOR I=1 TO 10");
        return;
    }
    first = value();
    if (!failed && !word("TO")) fail("TO is missing", "Write FOR I=1 TO 10, or FOR I=10 TO 1 STEP -1");
    limit = failed ? 0 : value();
    if (!failed && word("STEP")) step = value();
    if (failed) return;
    if (!step) {
        fail("A STEP of 0 never ends", "Write STEP 1 or STEP -1");
        return;
    }
    set_word(place, (uint16)first);
    found = open_for(place, 0);
    if (found) open_frames = (int16)(found - 1);
    if (step > 0 ? first > limit : first < limit) {
        skip_loop();
        return;
    }
    frame = new_frame(place);
    if (!frame) return;
    frame->limit = limit;
    frame->step = step;
}

static void next_statement(void) {
    int16 is_string = 0, any = at_end(), found;
    uint16 place = any ? 0 : variable(&is_string);
    struct frame *frame;
    int32 n;
    if (failed) return;
    found = open_for(place, any);
    if (!found || is_string) {
        fail("NEXT comes without its FOR", "Write FOR I=1 TO 10 before NEXT I");
        return;
    }
    open_frames = found;
    frame = frames + found - 1;
    n = (int32)(int16)word_at(frame->variable) + frame->step;
    if (n >= -32768 && n <= 32767) set_word(frame->variable, (uint16)n);
    if (frame->step > 0 ? n > frame->limit : n < frame->limit) open_frames--;
    else go_back(frame);
}

/* ON A GOTO 10,20,30. */
static void on_statement(void) {
    int16 which = value(), is_sub, wanted = 0;
    if (failed) return;
    is_sub = word("GOSUB");
    if (!is_sub && !word("GOTO")) {
        fail("GOTO or GOSUB is missing", "Write ON A GOTO 100,200");
        return;
    }
    do {
        int16 n = value();
        if (--which == 0) wanted = n;
    } while (!failed && sign(','));
    if (failed || !wanted) return;
    if (is_sub) go_sub(wanted);
    else jump(wanted);
}

/* Sets data_at to the next item; 0 if there is none. */
static int16 next_data(void) {
    const char *here = at;
    uint16 in = line;
    int16 found;
    if (data_line && *data_at == ',') {
        data_at++;
        return 1;
    }
    line = data_line ? data_line : PROGRAM;
    at = data_line ? data_at : line_text(line);
    found = line < program_end && find_word("DATA", 0);
    data_line = line;
    data_at = at;
    if (!found) data_line = 0;
    line = in;
    at = here;
    return found;
}

static void read(void) {
    do {
        int16 is_string;
        uint16 place = variable(&is_string);
        if (failed) return;
        if (!next_data()) fail("There is no DATA any more", "Write more DATA, or RESTORE to begin anew");
        else if (!store_item(place, is_string, item(&data_at, 1)))
            fail("DATA has a text where READ wants a number", "Write READ A$, or a number into the DATA");
    } while (!failed && sign(','));
}

static void dim(void) {
    do {
        int16 found = name(), is_string, first, second = -1;
        is_string = !failed && sign('$');
        if (!failed && !sign('(')) fail("DIM wants a last index", "Write DIM A(10) or DIM A$(9,9)");
        first = failed ? 0 : value();
        if (!failed && sign(',')) {
            second = value();
            if (second < 0) second = -2;
        }
        if (!failed && !sign(')')) fail("A ) is missing", "Write DIM A(10)");
        if (!failed) dimension(found, is_string, first, second);
    } while (!failed && sign(','));
}

static void randomize(void) {
    uint16 seed = at_end() ? keys_mixed() : (uint16)value();
    if (!failed) random_begin(seed);
}

void forget(void) {
    clear_variables();
    open_frames = 0;
    data_line = 0;
}

/* A file's name: a string. */
static const char *file_argument(void) {
    uint16 start;
    if (!string_ahead()) {
        fail("The name of the file is missing", "Write it in quotes: SAVE \"GAME\"");
        return "";
    }
    start = string();
    return pool_text(start);
}

static void load_statement(void) {
    const char *given = file_argument();
    if (failed) return;
    line = 0;
    ended = 1;
    load(given);
    forget();
}

static void run_statement(void) {
    if (string_ahead()) {
        load_statement();
        ended = 0;
    }
    if (failed) return;
    forget();
    if (digit_ahead()) jump(digits());
    else if (program_end == PROGRAM) fail("There is no program", "Type its lines, each with a number: 10 PRINT \"HELLO\"");
    else go_to_line(PROGRAM);
}

static void list_statement(void) {
    int16 first = 1, last = LAST;
    if (digit_ahead()) last = first = digits();
    if (sign('-')) last = digit_ahead() ? digits() : LAST;
    if (!failed) list((uint16)first, (uint16)last);
}

static void pack_answer(int16 fault) {
    if (fault < 0) fail(why(fault), "CAT shows the files");
}

static void kill(void) {
    const char *given = file_argument();
    if (!failed) pack_answer(delete_file(given));
}

static void help(void) {
    type_text("Type these lines, with RETURN behind each, and RUN to start them:\n"
              "  10 INPUT \"YOUR NAME\";N$\n"
              "  20 FOR I=1 TO 3\n"
              "  30 PRINT I;\"HELLO, \";N$\n"
              "  40 NEXT I\n"
              "  50 PRINT \"TWO DICE:\";RND(6);RND(6)\n"
              "LIST shows the program, the number of a line alone takes the line out, NEW\n"
              "empties it, Ctrl-C stops it. SAVE \"NAME\" puts it on the pack, LOAD \"NAME\" gets\n"
              "it, CAT shows the files, KILL \"NAME\" takes one away; BYE goes to the menu.\n"
              "The words: PRINT INPUT LET IF THEN ELSE FOR TO STEP NEXT GOTO GOSUB RETURN ON\n"
              "DIM DATA READ RESTORE REM END STOP RANDOMIZE CLS; AND OR NOT MOD; ABS SGN RND\n"
              "LEN ASC VAL FRE LEFT$ RIGHT$ MID$ CHR$ STR$ INKEY$ TAB. Numbers are whole.\n");
}

static void leave_basic(void) {
    is_over = ended = 1;
}

static void go_to(void) {
    int16 wanted = value();
    jump(wanted);
}

static void restore(void) {
    data_line = 0;
}

static void data(void) {
    while (*at && *at != ':') at++;
}

static void end(void) {
    ended = 1;
}

static void stop_statement(void) {
    stop("Stopped");
}

static void clear_screen(void) {
    type_text("\033H\033J");
    column = 0;
}

static void new_statement(void) {
    new_program();
    forget();
    ended = 1;
}

static void save_statement(void) {
    const char *given = file_argument();
    if (!failed) save(given);
}

static void cat(void) {
    int16 answer = show_files();
    pack_answer(answer);
    stop_wanted = answer > 0;
}

/* What each word does. A word that begins by another one comes before it. */
static const struct statement {
    const char *word;
    void (*does)(void);
} statements[] = {
    {"PRINT", print}, {"?", print}, {"LET", assign}, {"INPUT", input}, {"IF", if_then}, {"FOR", for_statement},
    {"NEXT", next_statement}, {"GOTO", go_to}, {"GOSUB", go_sub_statement}, {"RETURN", return_statement},
    {"ON", on_statement}, {"DIM", dim}, {"DATA", data}, {"READ", read}, {"RESTORE", restore}, {"REM", end_of_line},
    {"'", end_of_line}, {"END", end}, {"STOP", stop_statement}, {"RANDOMIZE", randomize}, {"CLS", clear_screen},
    {"RUN", run_statement}, {"LIST", list_statement}, {"NEW", new_statement}, {"SAVE", save_statement},
    {"LOAD", load_statement}, {"CAT", cat}, {"KILL", kill}, {"HELP", help}, {"BYE", leave_basic}, {0, 0}};

static void statement(void) {
    const struct statement *one;
    pool_end = 0;
    for (one = statements; one->word; one++)
        if (word(one->word)) {
            one->does();
            return;
        }
    assign();
}

/* Forgets the FOR and GOSUB of lines that were typed at the prompt, and what is inside of them. */
static void forget_typed(void) {
    int16 each;
    for (each = 0; each < open_frames && frames[each].line; each++) continue;
    open_frames = each;
}

void run(void) {
    forget_typed();
    ended = stop_wanted = 0;
    may_begin = 1;
    while (!ended && !failed) {
        if (interrupted() || stop_wanted) {
            type_text("^C");
            stop("Stopped");
            return;
        }
        blanks();
        if (!*at) {
            if (!line) return;
            go_to_line(line_behind(line));
        } else if (*at == ':') {
            at++;
            may_begin = 1;
        } else if (word("ELSE")) end_of_line();
        else if (!may_begin && *at != '\'')
            fail("BASIC doesn't understand the rest of this statement", "Write a : between statements; HELP lists the words");
        else {
            may_begin = 0;
            statement();
        }
    }
}
