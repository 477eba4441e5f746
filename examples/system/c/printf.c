/* Numbers as texts, for printf. */
#include <stdarg.h>
#include "system.h"

static void digits(unsigned long n, unsigned base)
{
    if (n >= base)
        digits(n / base, base);
    putc('0' + n % base);
}

void printf(const char *form, ...)
{
    va_list given;

    va_start(given, form);
    for (; *form; form++) {
        if (*form != '%') {
            putc(*form);
            continue;
        }
        int is_long = *++form == 'l';
        form += is_long;
        if (*form == 'c')
            putc(va_arg(given, int));
        else if (*form == 's')
            puts(va_arg(given, const char *));
        else if (*form == 'd') {
            long n = is_long ? va_arg(given, long) : va_arg(given, int);
            if (n < 0)
                putc('-');
            digits(n < 0 ? -n : n, 10);
        } else if (*form == 'u' || *form == 'o')
            digits(is_long ? va_arg(given, unsigned long) : va_arg(given, unsigned), *form == 'o' ? 8 : 10);
        else
            putc(*form);
    }
    va_end(given);
}
