/* Texts and bytes in memory: <string.h> of the own library. */
#include "expect.h"

static void lengths_and_orders(void)
{
    expect("strlen of none", (int)strlen(""), 0);
    expect("strlen", (int)strlen("abc\0d"), 3);
    expect("strcmp of equals", strcmp("abc", "abc"), 0);
    expect("strcmp below", strcmp("abc", "abd") < 0, 1);
    expect("strcmp of a prefix", strcmp("abcd", "abc") > 0, 1);
    expect("strcmp is of unsigned bytes", strcmp("\xFF", "a") > 0, 1);
    expect("strncmp of the first", strncmp("abcd", "abxy", 2), 0);
    expect("strncmp of one more", strncmp("abcd", "abxy", 3) < 0, 1);
    expect("strncmp of 0", strncmp("a", "b", 0), 0);
    expect("strncmp ends with the text", strncmp("ab\0x", "ab\0y", 4), 0);
    expect("memcmp goes on", memcmp("ab\0x", "ab\0y", 4) < 0, 1);
    expect("memcmp is of unsigned bytes", memcmp("\x80", "\x7F", 1) > 0, 1);
}

static void copies(void)
{
    char to[8];
    expect("strcpy answers", strcpy(to, "abc") == to, 1);
    expect("strcpy", memcmp(to, "abc", 4), 0);
    memset(to, 'x', sizeof to);
    expect("strncpy answers", strncpy(to, "ab", 4) == to, 1);
    expect("strncpy fills", memcmp(to, "ab\0\0x", 5), 0);
    strncpy(to, "abcdef", 3);
    expect("strncpy ends without 0", memcmp(to, "abc\0x", 5), 0);
    memcpy(to, "1234567", 8);
    expect("memmove up", memcmp(memmove(to + 2, to, 5), "12345", 5), 0);
    expect("memmove down", memcmp(memmove(to, to + 1, 5), "21234", 5), 0);
    expect("memset", memcmp(memset(to, 0x141, 3), "AAA", 3), 0);
}

static void searches(void)
{
    const char *text = "banana";
    expect("strchr", (int)(strchr(text, 'a') - text), 1);
    expect("strchr of none", strchr(text, 'x') == NULL, 1);
    expect("strchr of 0", (int)(strchr(text, 0) - text), 6);
    expect("strchr of a large int", (int)(strchr(text, 0x100 + 'n') - text), 2);
    expect("strrchr", (int)(strrchr(text, 'a') - text), 5);
    expect("strrchr of the first", (int)(strrchr(text, 'b') - text), 0);
    expect("strrchr of none", strrchr(text, 'x') == NULL, 1);
    expect("strrchr of 0", (int)(strrchr(text, 0) - text), 6);
    expect("memchr", (int)((const char *)memchr(text, 'n', 6) - text), 2);
    expect("memchr stops", memchr(text, 'n', 2) == NULL, 1);
    expect("memchr of an unsigned byte", memchr("\x7F\xFF", 0xFF, 2) != NULL, 1);
}

int main(void)
{
    lengths_and_orders();
    copies();
    searches();
    return tell();
}
