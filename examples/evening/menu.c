/* The menu: what the pack boots. It lists the programs of the catalogue, and puts the one that is chosen in its place. */
#include "catalogue.h"
#include "talk.h"

#define LINE 72
#define MEMORY 56832

void launch(uint16 sector, uint16 words);

static void show(void) {
    struct file file;
    int16 entry = 0, listed = 0;
    text("\nAn evening's programs\n\n");
    while ((entry = next_file(entry, &file)) > 0) {
        int16 length;
        if (file.kind != FILE_PROGRAM) continue;
        if (++listed < 10) put(' ');
        number(listed);
        put(' ');
        for (length = file_name(file.name); length < NAME; length++) put(' ');
        put(' ');
        file.title[TITLE - 1] = 0;
        text(file.title);
        put('\n');
    }
    if (entry < 0) text("The catalogue can't be read.\n");
    text("\nType a number or a name. FILES lists the files, DELETE NAME takes one away,\nMENU shows this again.\n");
}

/* The program of a number of the list; 0 if there is none. */
static int16 numbered(int16 wanted, struct file *found) {
    int16 entry = 0, listed = 0;
    while ((entry = next_file(entry, found)) > 0)
        if (found->kind == FILE_PROGRAM && ++listed == wanted) return 1;
    return 0;
}

static void start(const struct file *file) {
    if (file_size(file) > MEMORY) {
        text("It is too long for the memory.\n");
        return;
    }
    launch((uint16)(file->first / 12 * 16 + file->first % 12), (uint16)-((file_size(file) + 1) / 2));
}

static void tell(int16 fault) {
    text(why(fault));
    text(".\n");
}

/* Whether a line begins by a word; what is behind it and blanks. */
static const char *behind(const char *line, const char *word) {
    while (*word)
        if (capital(*line++) != *word++) return 0;
    if (*line && *line != ' ') return 0;
    while (*line == ' ') line++;
    return line;
}

static void obey(const char *line) {
    struct file file;
    const char *rest;
    int16 fault, wanted;
    while (*line == ' ') line++;
    rest = line;
    if (!*line) return;
    if (behind(line, "MENU")) show();
    else if (behind(line, "FILES")) {
        fault = show_files();
        if (fault < 0) tell(fault);
    } else if ((rest = behind(line, "DELETE")) != 0) {
        fault = delete_file(rest);
        if (fault) tell(fault);
    } else if (rest = line, read_number(&rest, &wanted) && !*rest) {
        if (numbered(wanted, &file)) start(&file);
        else text("There is no such number; MENU shows the list.\n");
    } else {
        fault = find_file(line, &file);
        if (fault == DISK_FAILS) tell(fault);
        else if (fault || file.kind != FILE_PROGRAM) text("That is no program; MENU shows the list.\n");
        else start(&file);
    }
}

int main(void) {
    char line[LINE];
    show();
    for (;;) {
        text("> ");
        if (read_line(line, LINE) > 0) obey(line);
    }
}
