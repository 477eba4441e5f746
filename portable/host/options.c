#include "options.h"

#include <stdio.h>
#include <stdlib.h>
#include <string.h>

#include "p11_version.h"
#include "system.h"

static const char *const HINT = "For more information, try '--help'.\n";

/* How an option is written with its value. */
static const char *shown(const struct option *option) {
    static char text[64];
    sprintf(text, option->value ? "--%s <%s>" : "--%s", option->name, option->value);
    return text;
}

static const char *script_of(const struct program *program) { return program->wants_script ? "<SCRIPT>" : "[SCRIPT]"; }

static int fail(const struct program *program, const char *options) {
    if (options) fprintf(stderr, "\nUsage: %s %s%s\n", program->name, options, script_of(program));
    fprintf(stderr, "\n%s", HINT);
    return 2;
}

static int say(const struct program *program, const char *text) {
    if (fputs(text, stdout) >= 0 && fflush(stdout) == 0) return 0;
    fprintf(stderr, "%s: write fault\n", program->name);
    return 1;
}

static int say_version(const struct program *program) {
    const char *told = p11_version() + strlen("p11 ");
    int length = (int)strcspn(told, ";");
    char text[512];
    snprintf(text, sizeof text, "%s %.*s\n%s\n", program->name, length, told, told + length + strlen("; "));
    return say(program, text);
}

/* Why a text is no number of 32 bits; null if it is one. */
static const char *number_fault(const char *text) {
    static char said[80];
    const char *digits = text + (*text == '+' && text[1]);
    size_t count = strspn(digits, "0123456789");
    if (!*text) return "cannot parse integer from empty string";
    if (digits[count]) return "invalid digit found in string";
    digits += strspn(digits, "0");
    if (strlen(digits) > 19) return "number too large to fit in target type";
    if (strtoull(digits, NULL, 10) <= 0xffffffffU) return NULL;
    snprintf(said, sizeof said, "%s is not in 0..=4294967295", digits);
    return said;
}

uint32_t number_of(const char *value, uint32_t other) { return value ? (uint32_t)strtoull(value, NULL, 10) : other; }

static int find(const struct program *program, const char *name, size_t length) {
    int at;
    for (at = 0; program->options[at].name; at++)
        if (strlen(program->options[at].name) == length && strncmp(program->options[at].name, name, length) == 0) return at;
    return -1;
}

static int refuse_word(const struct program *program, const char *word) {
    size_t length = word[0] == '-' && word[1] == '-' ? strcspn(word, "=") : word[0] == '-' ? 2 : strlen(word);
    fprintf(stderr, "error: unexpected argument '%.*s' found\n", (int)length, word);
    if (word[0] == '-') fprintf(stderr, "\n  tip: to pass '%.*s' as a value, use '-- %.*s'\n", (int)length, word, (int)length, word);
    return fail(program, "[OPTIONS] ");
}

/* Takes the option of a word; *next is the word behind it, which is taken if it is its value. */
static int take_option(const struct program *program, const char *word, char ***next, struct choices *choices) {
    size_t length = strcspn(word + 2, "=");
    const char *value = word[2 + length] ? word + 3 + length : NULL, *why;
    int at = find(program, word + 2, length);
    const struct option *option = program->options + at;
    if (at < 0) return refuse_word(program, word);
    if (!option->value && value) {
        char used[64];
        snprintf(used, sizeof used, "--%s ", option->name);
        fprintf(stderr, "error: unexpected value '%s' for '--%s' found; no more were expected\n", value, option->name);
        return fail(program, used);
    }
    if (option->value && !value) {
        value = **next;
        if (!value || strcmp(value, "--") == 0) {
            fprintf(stderr, "error: a value is required for '%s' but none was supplied\n", shown(option));
            return fail(program, NULL);
        }
        if (value[0] == '-' && value[1]) return refuse_word(program, value);
        ++*next;
    }
    if (choices->values[at]) {
        fprintf(stderr, "error: the argument '%s' cannot be used multiple times\n", shown(option));
        return fail(program, option->value ? NULL : "[OPTIONS] ");
    }
    if (option->is_number && (why = number_fault(value)) != NULL) {
        fprintf(stderr, "error: invalid value '%s' for '%s': %s\n", value, shown(option), why);
        return fail(program, NULL);
    }
    choices->values[at] = option->value ? value : option->name;
    return -1;
}

static int is_there(const struct program *program, const struct choices *choices, const char *name) {
    int at = find(program, name, strlen(name));
    return at < 0 ? choices->script != NULL : choices->values[at] != NULL;
}

/* Refuses options that lack what is to stand beside them, or have what may not. */
static int check_pairs(const struct program *program, const struct choices *choices) {
    const struct option *option;
    for (option = program->options; option->name; option++) {
        if (!is_there(program, choices, option->name)) continue;
        if (option->never && is_there(program, choices, option->never)) {
            fprintf(stderr, "error: the argument '%s' cannot be used with '--%s'\n", shown(option), option->never);
            return fail(program, "[OPTIONS] ");
        }
        if (option->needs && !is_there(program, choices, option->needs)) {
            int is_option = find(program, option->needs, strlen(option->needs)) >= 0;
            fprintf(stderr, "error: the following required arguments were not provided:\n  %s\n", is_option ? "--batch" : "<SCRIPT>");
            return fail(program, "[OPTIONS] ");
        }
    }
    return -1;
}

int read_options(const struct program *program, int count, char **words, struct choices *choices) {
    char **next = words + 1;
    int only_script = 0, status, at;
    memset(choices, 0, sizeof *choices);
    for (at = 1; at < count; at++)
        if (!is_text(words[at])) return fprintf(stderr, "%s: arguments are not UTF-8\n", program->name), 2;
    while (*next) {
        char *word = *next++;
        if (only_script || word[0] != '-' || !word[1]) {
            if (choices->script) return refuse_word(program, word);
            choices->script = word;
        } else if (strcmp(word, "--") == 0) {
            only_script = 1;
        } else if (word[1] == 'h' || strcmp(word, "--help") == 0) {
            return say(program, program->help);
        } else if (word[1] == 'V' || strcmp(word, "--version") == 0) {
            return say_version(program);
        } else if (word[1] != '-') {
            return refuse_word(program, word);
        } else if ((status = take_option(program, word, &next, choices)) >= 0) {
            return status;
        }
    }
    if (!program->wants_script || choices->script) return check_pairs(program, choices);
    fprintf(stderr, "error: the following required arguments were not provided:\n  <SCRIPT>\n");
    return fail(program, "");
}
