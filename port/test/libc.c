/* As much of a C library as examples/valve.c needs on a bare board: %d, %u, %lu and %s. */
#include "board.h"

#include <stdarg.h>
#include <stdio.h>
#include <stdlib.h>

static void say_number(unsigned long number, int negative)
{
    char text[16];
    size_t at = sizeof text - 1;
    text[at] = 0;
    do {
        text[--at] = (char)('0' + number % 10);
        number /= 10;
    } while (number != 0);
    if (negative) {
        text[--at] = '-';
    }
    board_say(text + at);
}

static void say_argument(char kind, int is_long, va_list *arguments)
{
    if (kind == 's') {
        board_say(va_arg(*arguments, const char *));
    } else if (kind == 'u') {
        say_number(is_long ? va_arg(*arguments, unsigned long) : va_arg(*arguments, unsigned), 0);
    } else {
        const long number = is_long ? va_arg(*arguments, long) : va_arg(*arguments, int);
        say_number(number < 0 ? 0ul - (unsigned long)number : (unsigned long)number, number < 0);
    }
}

static void say(const char *format, va_list *arguments)
{
    for (; *format; format++) {
        if (*format == '%') {
            const int is_long = format[1] == 'l';
            format += 1 + is_long;
            say_argument(*format, is_long, arguments);
        } else {
            const char letter[2] = { *format, 0 };
            board_say(letter);
        }
    }
}

int printf(const char *format, ...)
{
    va_list arguments;
    va_start(arguments, format);
    say(format, &arguments);
    va_end(arguments);
    return 0;
}

int fprintf(int stream, const char *format, ...)
{
    va_list arguments;
    (void)stream;
    va_start(arguments, format);
    say(format, &arguments);
    va_end(arguments);
    return 0;
}

_Noreturn void exit(int status)
{
    board_stop(status);
}
