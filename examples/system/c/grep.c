/* grep PATTERN [FILE ..]: the lines of the files, or of its input, in which the pattern is. ^ is a line's begin, $ its end,
 * . any byte; C* is any number of C, none too. */
#include "system.h"

static int here(const char *pattern, const char *text);

/* Whether so many C and then the pattern are at the text's begin. */
static int after_many(char c, const char *pattern, const char *text)
{
    do
        if (here(pattern, text))
            return 1;
    while (*text && (*text++ == c || c == '.'));
    return 0;
}

/* Whether the pattern is at the text's begin. */
static int here(const char *pattern, const char *text)
{
    if (!*pattern)
        return 1;
    if (pattern[1] == '*')
        return after_many(*pattern, pattern + 2, text);
    if (*pattern == '$' && !pattern[1])
        return !*text;
    return *text && (*pattern == '.' || *pattern == *text) && here(pattern + 1, text + 1);
}

static int is_in(const char *pattern, const char *text)
{
    if (*pattern == '^')
        return here(pattern + 1, text);
    do
        if (here(pattern, text))
            return 1;
    while (*text++);
    return 0;
}

/* The lines of the input; behind a name, if there is one. */
static void search(const char *pattern, const char *name)
{
    char line[256];

    while (getline(line) >= 0)
        if (is_in(pattern, line)) {
            if (name)
                printf("%s: ", name);
            putline(line);
        }
}

int main(int count, char **words)
{
    if (count < 2)
        misuse("grep PATTERN [FILE ..]");
    if (count == 2)
        search(words[1], 0);
    for (int at = 2; at < count; at++)
        if (input(words[at]) >= 0) {
            search(words[1], count > 3 ? words[at] : 0);
            endin();
        }
    return 0;
}
