/* The rules of the world, and behind them what the engine does by itself. */
#include "game.h"

#include "saved.h"

enum condition { IS_AT = 1, HAS, HAS_NOT, IS_PRESENT, IS_IN, IS_SET, IS_UNSET };
enum effect { SAYS = 16, MOVES, GOES, RAISES, SCORES, EXAMINES, WINS };

struct state now;

void game_begin(void) {
    int16 at;
    fill(&now, 0, sizeof now);
    now.room = (int16)world.start;
    for (at = 1; at <= (int16)world.things; at++) now.places[at] = thing_at(at)->place;
}

int16 is_present(int16 thing) {
    return now.places[thing] == CARRIED || now.places[thing] == now.room;
}

/* What a thing is listed by where it lies. */
static void list_thing(int16 thing) {
    const struct thing *of = thing_at(thing);
    if (of->flags & HIDDEN && !now.moved[thing]) return;
    if (of->here && (of->flags & FIXED || !now.moved[thing])) {
        say(of->here);
    } else {
        tell("There is ");
        say(of->title);
        tell(" here.");
    }
    new_line();
}

void look(void) {
    int16 at;
    say(room_at(now.room)->title);
    new_line();
    say(room_at(now.room)->text);
    new_line();
    for (at = 1; at <= (int16)world.things; at++)
        if (now.places[at] == now.room) list_thing(at);
}

static void say_line(uint16 place) {
    say(place);
    new_line();
}

static void tell_line(const char *from) {
    tell(from);
    new_line();
}

/* A thing by its title, which begins a sentence. */
static void thing_and(int16 thing, const char *what) {
    say(thing_at(thing)->title);
    tell(what);
    new_line();
}

/* What can't go indoors among the things that are carried, or 0. */
static int16 stays_outdoors(void) {
    int16 at;
    for (at = 1; at <= (int16)world.things; at++)
        if (now.places[at] == CARRIED && thing_at(at)->flags & OUTDOORS) return at;
    return 0;
}

static void go(int16 direction) {
    int16 to = direction > GO_LAST ? 0 : room_at(now.room)->exits[direction - GO_FIRST], barred = stays_outdoors();
    if (!to) {
        tell_line("There is no way there.");
    } else if (barred && room_at(to)->flags & INDOORS) {
        tell("Not with ");
        say(thing_at(barred)->title);
        tell_line(": DROP it outside.");
    } else {
        now.room = to;
        look();
    }
}

static void take(int16 thing) {
    if (now.places[thing] == CARRIED) {
        tell_line("You have it already.");
    } else if (thing_at(thing)->flags & FIXED) {
        tell_line("That stays where it is.");
    } else {
        now.places[thing] = CARRIED;
        now.moved[thing] = 1;
        thing_and(thing, ": taken.");
    }
}

static void drop(int16 thing) {
    if (now.places[thing] != CARRIED) {
        tell_line("You haven't got it.");
        return;
    }
    now.places[thing] = (byte)now.room;
    thing_and(thing, ": dropped.");
}

/* Takes or drops everything. */
static void every_thing(int16 verb) {
    int16 at, done = 0;
    for (at = 1; at <= (int16)world.things; at++) {
        if (now.places[at] != (verb == TAKE ? now.room : CARRIED)) continue;
        if (verb == TAKE && thing_at(at)->flags & (FIXED | HIDDEN)) continue;
        act(verb, at, 0);
        done = 1;
    }
    if (!done) tell_line("There is nothing for that.");
}

static void inventory(void) {
    int16 at, count = 0;
    for (at = 1; at <= (int16)world.things; at++) {
        if (now.places[at] != CARRIED) continue;
        tell(count++ ? ", " : "You carry ");
        say(thing_at(at)->title);
    }
    tell_line(count ? "." : "You carry nothing.");
}

static void tell_number(int16 n) {
    char digits[8];
    int16 at = 7;
    digits[at] = 0;
    do {
        digits[--at] = (char)('0' + n % 10);
        n /= 10;
    } while (n);
    tell(digits + at);
}

static void score(void) {
    tell("You have ");
    tell_number(now.score);
    tell(" of ");
    tell_number((int16)world.points);
    tell(" points, after ");
    tell_number(now.turns);
    tell_line(" turns.");
}

static void help(void) {
    tell_line("Begin with the letter: READ LETTER says what is wrong with the canal. EXAMINE people and things: most say what "
              "they want. GIVE one thing TO somebody, or use a verb that fits, as DIG, CUT, FILL, TURN, MEND, PUSH. TAKE ALL and "
              "DROP ALL work; IT is the thing that you named last; AGAIN, or G, repeats a command; a point separates two.");
}

static int16 holds(const byte *code) {
    int16 thing = code[1];
    switch (code[0]) {
    case IS_AT: return now.room == thing;
    case HAS: return now.places[thing] == CARRIED;
    case HAS_NOT: return now.places[thing] != CARRIED;
    case IS_PRESENT: return is_present(thing);
    case IS_IN: return now.places[thing] == code[2];
    case IS_SET: return now.flags[thing];
    default: return !now.flags[thing];
    }
}

static void win(void) {
    now.is_won = 1;
    say_line(world.won);
    score();
}

static void effect(const byte *code) {
    switch (code[0]) {
    case SAYS: say_line((uint16)(code[1] | code[2] << 8)); break;
    case MOVES:
        now.places[code[1]] = code[2] == HERE ? (byte)now.room : code[2];
        if (code[2] == CARRIED) now.moved[code[1]] = 1;
        break;
    case GOES:
        now.room = code[1];
        break;
    case RAISES: now.flags[code[1]] = 1; break;
    case SCORES: now.score = (int16)(now.score + code[1]); break;
    case EXAMINES: say_line(thing_at(code[1])->look); break;
    default: win(); break;
    }
}

/* Whether a rule is for a command: with the same things in any order, or with its one thing as the first. */
static int16 is_for(const struct rule *rule, int16 verb, int16 one, int16 other) {
    if (rule->verb != verb) return 0;
    if (!rule->other) return !rule->one || rule->one == one;
    return (rule->one == one && rule->other == other) || (rule->one == other && rule->other == one);
}

/* Takes the first rule that is for a command and whose conditions hold: whether there is one. A new room is looked at in the
 * end. */
static int16 by_rule(int16 verb, int16 one, int16 other) {
    int16 at, room = now.room;
    for (at = 0; at < (int16)world.rules; at++) {
        const byte *code = code_at(rule_at(at)->code);
        if (!is_for(rule_at(at), verb, one, other)) continue;
        while (*code && *code < SAYS && holds(code)) code += 3;
        if (*code && *code < SAYS) continue;
        for (; *code; code += 3) effect(code);
        if (now.room != room && !now.is_won) look();
        return 1;
    }
    return 0;
}

void act(int16 verb, int16 one, int16 other) {
    if (one == ALL && (verb == TAKE || verb == DROP)) {
        every_thing(verb);
        return;
    }
    if (one == ALL) {
        tell_line("One thing at a time, please.");
        return;
    }
    if (by_rule(verb, one, other)) return;
    if (verb <= GO_LAST) {
        go(verb);
        return;
    }
    switch (verb) {
    case LOOK:
        if (!one) look();
        else say_line(thing_at(one)->look);
        return;
    case INVENTORY: inventory(); return;
    case SCORE: score(); return;
    case SAVE: save_game(); return;
    case RESTORE:
        if (restore_game()) look();
        return;
    case HELP: help(); return;
    case GO: tell_line("Where to? NORTH, SOUTH, EAST, WEST, UP, DOWN, IN or OUT."); return;
    }
    if (!one) {
        tell_line("What with? Name a thing that is here.");
        return;
    }
    switch (verb) {
    case EXAMINE: say_line(thing_at(one)->look); return;
    case TAKE: take(one); return;
    case DROP:
    case PUT: drop(one); return;
    default: tell_line("Nothing comes of that."); return;
    }
}
