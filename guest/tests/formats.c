/* Formats: each text is that which POSIX.1-2017, printf, says of the conversion. */
#include <limits.h>
#include <stdarg.h>
#include <stddef.h>

#include "expect.h"

static char text[40];

static int print(const char *format, ...)
{
    va_list arguments;
    va_start(arguments, format);
    int length = vsprintf(text, format, arguments);
    va_end(arguments);
    return length;
}

static int print_line(const char *format, ...)
{
    va_list arguments;
    va_start(arguments, format);
    int length = vprintf(format, arguments);
    va_end(arguments);
    return length;
}

static void expect_text(int length, const char *expected)
{
    if (strcmp(text, expected) != 0) {
        puts(text);
    }
    expect(expected, strcmp(text, expected), 0);
    expect("its length", length, (int)strlen(expected));
}

static void numbers(void)
{
    expect_text(print("%d %i", INT_MIN, INT_MAX), "-2147483648 2147483647");
    expect_text(print("%u %x %X", UINT_MAX, 0xBEEFU, 0xBEEFU), "4294967295 beef BEEF");
    expect_text(print("[%5d][%-5d][%05d]", 42, 42, 42), "[   42][42   ][00042]");
    expect_text(print("[%5d][%-5d][%05d]", -42, -42, -42), "[  -42][-42  ][-0042]");
    expect_text(print("[%+d][%+d][% d][% d]", 1, -1, 1, -1), "[+1][-1][ 1][-1]");
    expect_text(print("[%.3d][%6.3d][%-6.3d]", 7, 7, -7), "[007][   007][-007  ]");
    expect_text(print("[%06.3d][%.0d][%.0d][%05d]", 7, 0, 1, 0), "[   007][][1][00000]");
    expect_text(print("[%#x][%#X][%#x][%#08x]", 255U, 255U, 0U, 255U), "[0xff][0XFF][0][0x0000ff]");
    expect_text(print("[%2d][%0d][%-1d]", 12345, 12345, 12345), "[12345][12345][12345]");
    expect_text(print("[%*d][%-*d][%*d]", 4, 1, 4, 1, -4, 1), "[   1][1   ][1   ]");
    expect_text(print("[%.*d][%.*d]", 3, 1, -3, 1), "[001][1]");
    expect_text(print("%ld %lu %zu %td", -5L, 5UL, (size_t)6, (ptrdiff_t)-7), "-5 5 6 -7");
    expect_text(print("%hd %hhu", (short)-5, (unsigned char)200), "-5 200");
    expect_text(print("%p", (void *)0x1234), "0x1234");
}

static void texts(void)
{
    expect_text(print("[%s][%5s][%-5s][%1s]", "abc", "abc", "abc", "abc"), "[abc][  abc][abc  ][abc]");
    expect_text(print("[%.2s][%5.1s][%.0s][%.9s]", "abc", "abc", "abc", "abc"), "[ab][    a][][abc]");
    expect_text(print("[%c][%3c][%-3c]", 'x', 'y', 'z'), "[x][  y][z  ]");
    expect_text(print("100%% of %s", "it"), "100% of it");
    expect("a byte 0", print("%c%cb", 'a', 0), 3);
    expect("its text", memcmp(text, "a\0b", 4), 0);
}

/* Conversions that there are not stand for themselves. The compiler would warn of a format that it can read. */
static void others(void)
{
    const char *volatile format = "%q %lld %d%";
    expect_text(print(format, 5), "%q %lld 5%");
}

static void rooms(void)
{
    memset(text, 'x', sizeof text);
    expect("more than there is room for", snprintf(text, 4, "%d", 123456), 6);
    expect("a 0 behind it", memcmp(text, "123\0x", 5), 0);
    expect("no room", snprintf(text, 0, "%d", 99), 2);
    expect("nothing is written", text[0], '1');
    expect("room for the 0 alone", snprintf(text, 1, "abc"), 3);
    expect("is written", text[0], 0);
    expect("sprintf", sprintf(text, "%s-%d", "a", 5), 3);
    expect("its text", strcmp(text, "a-5"), 0);
    expect("vprintf", print_line("%s %03d\n", "line", 7), 9);
}

int main(void)
{
    numbers();
    texts();
    others();
    rooms();
    return tell();
}
