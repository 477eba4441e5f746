/* What a program in C has in the small system. */

/* Ends the program, as the end of main does. */
_Noreturn void exit(int status);

/* Calls of sys.mac. Each answers what R0 is then; minus the error, if it failed. */
int open(const char *name);
int create(const char *name);
int read(int channel, void *to, unsigned most);
int write(int channel, const void *from, unsigned most);
int close(int channel);

/* Output, by lib.mac: a byte; a text; a text and a line feed; a line feed; a number at least so many places wide; what is
 * gathered. printf knows %c %s %d %u %o, %ld %lu %lo and %%. */
void putc(int byte);
void puts(const char *text);
void putline(const char *text);
void newline(void);
void number(unsigned n, int width);
void flush(void);
void printf(const char *form, ...);

/* Input: a byte; a line, which gets 256 bytes of room and has at most 255; -1 is the end. input makes a file the input, or
 * tells why not, and answers -1; endin closes it. */
int getc(void);
int getline(char *to);
int input(const char *name);
void endin(void);

/* Tells an error, a positive number, behind a name; ends the program with a text that says how it is used. */
void warnof(int error, const char *name);
_Noreturn void misuse(const char *text);
