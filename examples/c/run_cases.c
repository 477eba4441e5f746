/* run_cases FILE [own]: does the cases of FILE (examples/CASES.md; unpacked) on the machine of run_cases.h; with `own` without
 * those that this project's choices decide. Cases with devices are left out. It wants cJSON (Debian: libcjson-dev):
 *
 *     cc run_cases.c YOUR_MACHINE.c -lcjson -o run_cases
 *
 * The first ten cases that differ are printed, and all are counted. Exit status 0: no difference; 1: some; 2: the file is wrong. */
#include "run_cases.h"

#include <cjson/cJSON.h>
#include <stdio.h>
#include <stdlib.h>
#include <string.h>

enum { VERSION = 1, SHOWN = 10, PAGES = 8, WRITTEN = 0100 };

static const char *const register_names[] = {"ksp", "usp", "pc", "ps"};
static const char *const run_names[] = {"ready", "waiting", "halted"};
static const struct { const char *name; uint32_t address; } page_rows[] = {
    {"kpdr", 0772300}, {"kpar", 0772340}, {"updr", 0777600}, {"upar", 0777640}};
static const struct { const char *name; uint32_t address; } bus_registers[] = {
    {"slr", 0777774}, {"sr0", 0777572}, {"sr2", 0777576}};
#define COUNT(row) (sizeof(row) / sizeof((row)[0]))

static const char *file_name;
static unsigned line_number;
static const cJSON *rules;
static int without_own;

static void fail(const char *what, const char *name) {
    fprintf(stderr, "run_cases: %s, line %u: %s%s%s\n", file_name, line_number, what, name[0] ? " " : "", name);
    exit(2);
}

static const cJSON *field(const cJSON *object, const char *name) {
    const cJSON *found = cJSON_GetObjectItemCaseSensitive(object, name);
    if (!found) fail("there is no field", name);
    return found;
}

static unsigned number(const cJSON *item, const char *name, double most) {
    if (!cJSON_IsNumber(item) || item->valuedouble < 0 || item->valuedouble > most ||
        item->valuedouble != (unsigned)item->valuedouble)
        fail("no number that it may have stands in", name);
    return (unsigned)item->valuedouble;
}

static uint16_t word_of(const cJSON *item, const char *name) { return (uint16_t)number(item, name, 65535); }

static const char *text(const cJSON *object, const char *name) {
    const cJSON *found = field(object, name);
    if (!cJSON_IsString(found)) fail("no text stands in", name);
    return found->valuestring;
}

/* The address at which a run of words begins; its words are behind it. */
static uint32_t place_of(const cJSON *run) { return number(run->child, "ram", 0757776); }

/* The field of a state after the turns: final's, or where it has none initial's; NULL where neither has it. */
static const cJSON *after(const cJSON *one, const char *name) {
    const cJSON *changed = cJSON_GetObjectItemCaseSensitive(field(one, "final"), name);
    return changed ? changed : cJSON_GetObjectItemCaseSensitive(field(one, "initial"), name);
}

/* Whether a choice of the project that the case names decides `what`: all of the case (NULL), or a field. */
static int is_own(const cJSON *one, const char *what) {
    const cJSON *name, *part;
    cJSON_ArrayForEach(name, field(one, "own")) {
        if (!cJSON_IsString(name)) fail("no rule's name stands in", "own");
        const cJSON *fields = cJSON_GetObjectItemCaseSensitive(field(rules, name->valuestring), "fields");
        if (!what && !fields) return 1;
        cJSON_ArrayForEach(part, fields) if (what && cJSON_IsString(part) && !strcmp(part->valuestring, what)) return 1;
    }
    return 0;
}

static void put_words(uint32_t address, const cJSON *item, const char *name) {
    for (; item; item = item->next, address += 2) cases_put(address, word_of(item, name));
}

static void begin(const cJSON *one, unsigned kwords) {
    const cJSON *initial = field(one, "initial"), *run, *item;
    unsigned at = 0;
    cases_new(kwords);
    cJSON_ArrayForEach(run, field(initial, "ram")) {
        uint32_t address = place_of(run);
        put_words(address, run->child->next, "ram");
    }
    for (size_t row = 0; row < COUNT(page_rows); row++)
        if ((item = cJSON_GetObjectItemCaseSensitive(initial, page_rows[row].name)))
            put_words(page_rows[row].address, item->child, page_rows[row].name);
    if ((item = cJSON_GetObjectItemCaseSensitive(initial, "slr"))) cases_put(bus_registers[0].address, word_of(item, "slr"));
    cJSON_ArrayForEach(item, field(initial, "r")) {
        if (at == CASES_KSP) fail("there are more than six words in", "r");
        cases_set(at++, word_of(item, "r"));
    }
    for (size_t name = 0; name < COUNT(register_names); name++)
        cases_set(CASES_KSP + name, word_of(field(initial, register_names[name]), register_names[name]));
    if ((item = cJSON_GetObjectItemCaseSensitive(initial, "sr0"))) cases_put(bus_registers[1].address, word_of(item, "sr0"));
}

/* How many differences were found in a case, and whether they are printed. */
struct found {
    const cJSON *one;
    int count, shown;
};

static void compare(struct found *found, const char *name, uint32_t place, uint16_t wanted, uint16_t is) {
    if (wanted == is) return;
    if (found->shown && found->count == 0) printf("%s\n", text(found->one, "name"));
    if (found->shown) printf("  %s %06o: expected %06o, found %06o\n", name, place, wanted, is);
    found->count++;
}

static void compare_registers(struct found *found, const cJSON *one) {
    const cJSON *item;
    unsigned at = 0;
    cJSON_ArrayForEach(item, after(one, "r")) {
        compare(found, "r", at, word_of(item, "r"), cases_get(at));
        at++;
    }
    for (size_t name = 0; name < COUNT(register_names); name++)
        compare(found, register_names[name], 0, word_of(after(one, register_names[name]), register_names[name]),
                cases_get(CASES_KSP + name));
    for (size_t name = 0; name < COUNT(bus_registers); name++) {
        if (without_own && is_own(one, bus_registers[name].name)) continue;
        item = after(one, bus_registers[name].name);
        compare(found, bus_registers[name].name, bus_registers[name].address, item ? word_of(item, bus_registers[name].name) : 0,
                cases_word(bus_registers[name].address));
    }
}

static void compare_pages(struct found *found, const cJSON *one) {
    uint16_t seen = without_own && is_own(one, "w") ? (uint16_t)~WRITTEN : 0177777;
    for (size_t row = 0; row < COUNT(page_rows); row++) {
        const cJSON *item = after(one, page_rows[row].name);
        uint32_t address = page_rows[row].address;
        for (item = item ? item->child : NULL; item; item = item->next, address += 2)
            compare(found, page_rows[row].name, address, word_of(item, page_rows[row].name) & seen, cases_word(address) & seen);
    }
}

/* The word that memory is to have: final's, or where it has none the one that it began with. */
static uint16_t word_after(const cJSON *one, uint32_t address, uint16_t first) {
    const cJSON *run, *item;
    cJSON_ArrayForEach(run, cJSON_GetObjectItemCaseSensitive(field(one, "final"), "ram")) {
        uint32_t at = place_of(run);
        for (item = run->child->next; item; item = item->next, at += 2)
            if (at == address) return word_of(item, "ram");
    }
    return first;
}

static void compare_memory(struct found *found, const cJSON *one) {
    const cJSON *run, *item;
    cJSON_ArrayForEach(run, field(field(one, "initial"), "ram")) {
        uint32_t address = place_of(run);
        for (item = run->child->next; item; item = item->next, address += 2)
            compare(found, "word", address, word_after(one, address, word_of(item, "ram")), cases_word(address));
    }
}

/* Does a case; whether something differs. */
static int differs(const cJSON *one, unsigned kwords, int shown) {
    struct found found = {one, 0, shown};
    const cJSON *run = cJSON_GetObjectItemCaseSensitive(field(one, "final"), "run");
    begin(one, kwords);
    enum cases_run is = cases_step(number(field(one, "turns"), "turns", 100000000)), wanted = CASES_READY;
    while (run && wanted <= CASES_HALTED && strcmp(run_names[wanted], text(field(one, "final"), "run"))) wanted++;
    compare(&found, "run", 0, wanted, is);
    compare_registers(&found, one);
    compare_pages(&found, one);
    compare_memory(&found, one);
    return found.count > 0;
}

static void judge_head(const cJSON *head) {
    if (strcmp(text(head, "format"), "p11-cases")) fail("the format isn't p11-cases, but", text(head, "format"));
    if (number(field(head, "version"), "version", 1e9) != VERSION) fail("this runner reads version 1 of the format alone", "");
    rules = field(head, "rules");
}

int main(int count, char **words) {
    char *line = NULL;
    size_t room = 0;
    unsigned kwords = 0, same = 0, different = 0, left_out = 0;
    cJSON *head = NULL;
    without_own = count == 3 && !strcmp(words[2], "own");
    if (count < 2 || count > 2 + without_own) return fprintf(stderr, "usage: run_cases FILE [own]\n"), 2;
    file_name = words[1];
    FILE *file = fopen(file_name, "r");
    if (!file) return fprintf(stderr, "run_cases: %s can't be read\n", file_name), 2;
    while (getline(&line, &room, file) >= 0) {
        line_number++;
        cJSON *one = cJSON_Parse(line);
        if (!cJSON_IsObject(one)) fail("this is no object of JSON", "");
        if (!head) {
            judge_head(head = one);
            kwords = number(field(head, "memory"), "memory", 124);
            continue;
        }
        if (!strcmp(text(one, "kind"), "devices") || (without_own && is_own(one, NULL))) left_out++;
        else if (differs(one, kwords, different < SHOWN)) different++;
        else same++;
        cJSON_Delete(one);
    }
    if (!head) fail("the file is empty", "");
    cJSON_Delete(head);
    free(line);
    fclose(file);
    printf("%u cases: %u the same, %u differ, %u left out\n", same + different + left_out, same, different, left_out);
    return different > 0;
}
