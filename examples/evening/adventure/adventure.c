/* The Long Pound, an adventure: reads a line, finds its verb and its things, and does each command in it. The world is
 * world.txt, as world.py compiles it. */
#include "catalogue.h"
#include "game.h"
#include "talk.h"

#define LINE 79
#define LONGEST 20

static char line[LINE + 1];
static int16 last_verb, last_one, last_other, is_over;

/* What the parser passes over. */
static const char *const passed[] = {"the", "a", "an", "my", "to", "with", "at", "on", "onto", "into", "of", "from", "for",
                                     "some", 0};

static int16 is_word(const char *word, const char *other) {
    while (*word && *word == *other) {
        word++;
        other++;
    }
    return *word == *other;
}

static int16 is_passed(const char *word) {
    const char *const *at;
    for (at = passed; *at; at++)
        if (is_word(word, *at)) return 1;
    return 0;
}

/* Whether a word of the table is this one; only its first eight letters count. */
static int16 matches(const struct word *of, const char *word) {
    int16 at;
    for (at = 0; at < LETTERS; at++) {
        if (of->letters[at] != word[at]) return 0;
        if (!word[at]) return 1;
    }
    return 1;
}

static int16 verb_of(const char *word) {
    int16 at;
    for (at = 0; at < (int16)world.words; at++)
        if (word_at(at)->kind == WORD_VERB && matches(word_at(at), word)) return word_at(at)->number;
    return 0;
}

/* How well a thing is meant by a word: present things first, and what is to be taken rather not carried yet. */
static int16 fitness(int16 thing, int16 verb) {
    if (!is_present(thing)) return 1;
    return (int16)((now.places[thing] == CARRIED) == (verb == TAKE) ? 2 : 3);
}

/* The thing that a word means best, or 0. */
static int16 thing_of(const char *word, int16 verb) {
    int16 at, best = 0, fits = 0;
    for (at = 0; at < (int16)world.words; at++) {
        const struct word *of = word_at(at);
        if (of->kind != WORD_THING || !matches(of, word) || fitness(of->number, verb) <= fits) continue;
        best = of->number;
        fits = fitness(best, verb);
    }
    return best;
}

/* The next word of a command in small letters, and AT behind it; 0 if the command is over. */
static int16 next_word(const char **at, char *word) {
    int16 length = 0;
    while (**at == ' ' || **at == '"' || **at == '\'') ++*at;
    for (; **at > ' ' && **at != '.' && **at != ','; ++*at) {
        char c = **at;
        if (length < LONGEST - 1) word[length++] = (char)(c >= 'A' && c <= 'Z' ? c - 'A' + 'a' : c);
    }
    fill(word + length, 0, (uint16)(LONGEST - length));
    return length;
}

static void unknown(const char *word) {
    tell("The word \"");
    tell(word);
    tell("\" means nothing here.");
    new_line();
}

/* Whether both things are here; the first that isn't is told. */
static int16 are_present(int16 one, int16 other) {
    if ((!one || one == ALL || is_present(one)) && (!other || is_present(other))) return 1;
    tell("That isn't here.");
    new_line();
    return 0;
}

static void act_and_count(int16 verb, int16 one, int16 other) {
    if (!are_present(one, other)) return;
    last_verb = verb;
    if (one) last_one = one;
    last_other = other;
    now.turns++;
    act(verb, one, other);
}

/* Does one command, up to a point or a comma or the line's end: AT is behind it. */
static void command(const char **at) {
    char word[LONGEST];
    int16 verb, things[2] = {0, 0}, count = 0;
    if (!next_word(at, word)) return;
    verb = verb_of(word);
    if (!verb) {
        unknown(word);
        while (**at && **at != '.') ++*at;
        return;
    }
    while (next_word(at, word)) {
        int16 is_all = is_word(word, "all") || is_word(word, "everything");
        int16 thing = is_word(word, "it") ? last_one : is_all ? ALL : thing_of(word, verb);
        int16 direction = verb_of(word);
        if (verb == GO && direction && direction <= GO_LAST) {
            verb = direction;
        } else if (thing && count < 2) {
            if (!count || things[0] != thing) things[count++] = thing;
        } else if (!thing && !is_passed(word) && !(direction && direction <= GO_LAST)) {
            unknown(word);
            while (**at && **at != '.') ++*at;
            return;
        }
    }
    if (verb == AGAIN) act_and_count(last_verb ? last_verb : LOOK, last_verb ? last_one : 0, last_other);
    else if (verb == QUIT) is_over = 1;
    else act_and_count(verb, things[0], things[1]);
}

static void commands(void) {
    const char *at = line;
    while (*at && !is_over && !now.is_won) {
        if (*at == ' ' || *at == '.' || *at == ',') at++;
        else command(&at);
    }
}

/* Whether the player means to leave. */
static int16 is_sure(void) {
    text("Leave the game? What isn't saved is lost. (Y or N) ");
    return read_line(line, LINE + 1) < 0 || capital(line[0]) == 'Y';
}

int main(void) {
    int16 fault = world_begin();
    if (fault) {
        text("The adventure has no world: ");
        text(why(fault));
        text(".\nPress a key.");
        next_key();
        return 0;
    }
    game_begin();
    say(world.title);
    new_line();
    say(world.intro);
    new_line();
    put('\n');
    look();
    while (!now.is_won) {
        text("\n? ");
        if (read_line(line, LINE + 1) < 0) is_over = 1;
        else commands();
        if (is_over && is_sure()) return 0;
        is_over = 0;
    }
    text("\nPress a key.");
    next_key();
    return 0;
}
