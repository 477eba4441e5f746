/* console [SCRIPT]: holds a dialogue with the console of a machine: lines from standard input, the screen on standard output,
 * files by their names. With SCRIPT its lines are all, and are answered as ./p11 answers them. Exit status: the dialogue's; 2: a
 * call isn't done, there is no memory for a step, or standard output fails. */
#include <errno.h>
#include <stdio.h>
#include <string.h>
#include <unistd.h>

#include "pdp1140.h"

static struct p11_console console;
static uint8_t bytes[16 << 20], name[4096];

static uint32_t trouble(void) {
    return errno == ENOENT ? P11_FILE_MISSING : errno == EACCES ? P11_FILE_DENIED : errno == EEXIST ? P11_FILE_THERE : P11_FILE_FAULT;
}

static FILE *wanted(const char *mode) {
    size_t length = 0;
    if (p11_console_name(&console, name, sizeof name - 1, &length) == P11_DONE) name[length] = 0;
    return fopen((const char *)name, mode);
}

static int fetch(void) {
    FILE *in = wanted("rb");
    if (!in) return p11_console_missed(&console, trouble());
    size_t size = fread(bytes, 1, sizeof bytes, in);
    int is_whole = feof(in) && !ferror(in);
    fclose(in);
    return is_whole ? p11_console_fetched(&console, bytes, size) : p11_console_missed(&console, P11_FILE_LONG);
}

static int put(void) {
    uint32_t replace, pack;
    size_t size = 0;
    int status = p11_console_request(&console, &replace, &pack);
    if (status == P11_DONE) status = p11_console_image(&console, bytes, sizeof bytes, &size);
    if (status != P11_DONE) return status;
    FILE *out = wanted(replace ? "wb" : "wbx");
    if (!out) return p11_console_put(&console, trouble());
    int is_written = fwrite(bytes, 1, size, out) == size;
    return p11_console_put(&console, fclose(out) == 0 && is_written ? P11_FILE_WRITTEN : P11_FILE_FAULT);
}

static int give_keys(void) {
    ssize_t size = read(0, bytes, 4096);
    return size > 0 ? p11_console_keys(&console, bytes, (size_t)size) : p11_console_closed(&console);
}

static int show(void) {
    size_t size;
    while (p11_console_screen(&console, bytes, sizeof bytes, &size) == P11_DONE && size > 0)
        if (fwrite(bytes, 1, size, stdout) != size || p11_console_shown(&console, size) != P11_DONE) return 0;
    return fflush(stdout) == 0;
}

int main(int argc, char **argv) {
    uint32_t want = P11_WANTS_STEP, ends = 2;
    int status = p11_console_new(28, 1024, argc > 1 ? P11_BATCH : P11_GIVEN, 0, 0, 0, &console);
    if (status == P11_DONE && argc > 1) status = p11_console_open(&console, (const uint8_t *)argv[1], strlen(argv[1]));
    while (status == P11_DONE && want != P11_WANTS_END) {
        status = p11_console_step(&console, 1000000, &want);
        if (!show() || want == P11_WANTS_MEMORY) break;
        if (want == P11_WANTS_KEYS || want == P11_WANTS_IDLE) status = give_keys();
        if (want == P11_WANTS_FETCH) status = fetch();
        if (want == P11_WANTS_PUT) status = put();
    }
    if (status == P11_DONE && want == P11_WANTS_END) p11_console_status(&console, &ends);
    p11_console_drop(&console);
    return (int)ends;
}
