/* The text of a format. It is the largest part of a small guest, so it is written to be short: what a conversion says
 * is handed on in registers. */
#include "format.h"

#include <stdbool.h>
#include <stddef.h>
#include <stdint.h>

/* The flags, as bits by their places in this text. */
static const char flag_letters[] = "-0#+ ";
enum { LEFT = 1, ZERO = 2, FORM = 4, PLUS = 8, BLANK = 16 };

enum { DIGITS = 10 }; /* the most of a word */

static void fill(struct sink *sink, int byte, int count)
{
    for (; count > 0; count--) {
        sink->put(sink, byte);
    }
}

/* Puts `count` bytes of a text, at least `width` with what stands before and with zeros up to the precision. `before`
 * has up to two bytes, the lower one first. */
static void put_field(struct sink *sink, unsigned int flags, int width, int precision, unsigned int before,
                      const char *text, int count)
{
    int zeros = precision > count ? precision - count : 0;
    int blanks = width - count - zeros - (before != 0) - (before > 0xFF);
    if ((flags & LEFT) == 0) {
        if ((flags & ZERO) != 0) {
            zeros += blanks > 0 ? blanks : 0;
        } else {
            fill(sink, ' ', blanks);
        }
        blanks = 0;
    }
    for (; before != 0; before >>= 8) {
        sink->put(sink, (int)(before & 0xFF));
    }
    fill(sink, '0', zeros);
    for (; count > 0; count--) {
        sink->put(sink, *text);
        text++;
    }
    fill(sink, ' ', blanks);
}

/* Divides a word by a base and returns the remainder, bit by bit: quotient and remainder together take no longer than
 * two calls of the compiler's routines. */
static uint32_t divide(uint32_t *word, uint32_t base)
{
    uint32_t rest = 0;
    int bits = 32;
    for (; (int32_t)*word >= 0; bits--) { /* it is not 0 */
        *word <<= 1;
    }
    for (; bits > 0; bits--) {
        rest = rest << 1 | *word >> 31;
        *word <<= 1;
        if (rest >= base) {
            rest -= base;
            *word |= 1;
        }
    }
    return rest;
}

/* Puts a word as a number. The digits stand before `end`. */
static void put_number(struct sink *sink, unsigned int flags, int width, int precision, uint32_t word, char letter)
{
    char digits[DIGITS];
    char *first = digits + DIGITS;
    unsigned int before = 0;
    uint32_t base = 10;
    if (letter == 'd' || letter == 'i') {
        before = (flags & PLUS) != 0 ? '+' : (flags & BLANK) != 0 ? ' ' : 0;
        if ((int32_t)word < 0) {
            word = 0 - word;
            before = '-';
        }
    } else if (letter != 'u') {
        base = 16;
        if ((flags & FORM) != 0 && word != 0) {
            before = '0' | (unsigned int)letter << 8;
        }
    }
    if (precision >= 0) {
        flags &= ~(unsigned int)ZERO;
    } else {
        precision = 1; /* 0 has a digit */
    }
    while (word != 0) {
        uint32_t digit = '0' + divide(&word, base);
        if (digit > '9') {
            digit += (unsigned int)letter - 'x' + 'a' - '9' - 1;
        }
        first--;
        *first = (char)digit;
    }
    put_field(sink, flags, width, precision, before, first, (int)(digits + DIGITS - first));
}

/* Puts a text, of which the precision limits the bytes. */
static void put_text(struct sink *sink, unsigned int flags, int width, int precision, const char *text)
{
    int count = 0;
    while (count != precision && text[count] != 0) {
        count++;
    }
    put_field(sink, flags & LEFT, width, 0, 0, text, count);
}

/* Reads a decimal number, or takes it from the arguments for *, and goes behind it. */
static int number_at(const char **at, va_list *arguments)
{
    int number = 0;
    if (**at == '*') {
        (*at)++;
        return va_arg(*arguments, int);
    }
    for (; (unsigned int)**at - '0' < 10; (*at)++) {
        number = (number << 3) + (number << 1) + (**at - '0');
    }
    return number;
}

void put_format(struct sink *sink, const char *format, va_list *arguments)
{
    for (; *format != 0; format++) {
        const char *start = format;
        if (*format != '%') {
            sink->put(sink, *format);
            continue;
        }
        unsigned int flags = 0;
        int precision = -1;
        format++;
        for (int i = 0; i < 5; i++) {
            if (flag_letters[i] == *format) {
                flags |= 1U << i;
                format++;
                i = -1;
            }
        }
        int width = number_at(&format, arguments);
        if (width < 0) {
            flags |= LEFT;
            width = -width;
        }
        if (*format == '.') {
            format++;
            precision = number_at(&format, arguments);
        }
        while (*format == 'h') {
            format++;
        }
        if (*format == 'l' || *format == 'z' || *format == 't') { /* long, size_t and ptrdiff_t are a word, as int is */
            format++;
        }
        char letter = *format;
        switch (letter) {
        case 'p':
            flags |= FORM;
            letter = 'x';
            /* fall through */
        case 'd':
        case 'i':
        case 'u':
        case 'x':
        case 'X':
            put_number(sink, flags, width, precision, va_arg(*arguments, uint32_t), letter);
            break;
        case 's':
            put_text(sink, flags, width, precision, va_arg(*arguments, const char *));
            break;
        case 'c':
            put_field(sink, flags & LEFT, width, 0, 0, &(char){(char)va_arg(*arguments, int)}, 1);
            break;
        case '%':
            sink->put(sink, letter);
            break;
        default: /* a conversion that there is not stands for itself */
            format = start;
            sink->put(sink, *format);
            break;
        }
    }
}
