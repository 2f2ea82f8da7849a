/* Texts that end with a 0. */
#include "../library.h"

size_t strlen(const char *text)
{
    size_t length = 0;
    while (text[length] != 0)
        length++;
    return length;
}

int strncmp(const char *left, const char *right, size_t count)
{
    for (; count > 0; count--, left++, right++) {
        if (*left != *right || *left == 0)
            return (unsigned char)*left - (unsigned char)*right;
    }
    return 0;
}

int strcmp(const char *left, const char *right)
{
    return strncmp(left, right, SIZE_MAX);
}

char *strcpy(char *to, const char *from)
{
    return memcpy(to, from, strlen(from) + 1);
}

char *strncpy(char *to, const char *from, size_t count)
{
    const char *end = memchr(from, 0, count);
    size_t length = end != NULL ? (size_t)(end - from) : count;
    memcpy(to, from, length);
    memset(to + length, 0, count - length);
    return to;
}

char *strcat(char *to, const char *from)
{
    strcpy(to + strlen(to), from);
    return to;
}

char *strchr(const char *text, int byte)
{
    for (;; text++) {
        if (*text == (char)byte)
            return (char *)text;
        if (*text == 0)
            return NULL;
    }
}

char *strrchr(const char *text, int byte)
{
    for (size_t at = strlen(text) + 1; at > 0; at--) {
        if (text[at - 1] == (char)byte)
            return (char *)text + at - 1;
    }
    return NULL;
}

char *strstr(const char *text, const char *word)
{
    size_t length = strlen(word);
    for (; strncmp(text, word, length) != 0; text++) {
        if (*text == 0)
            return NULL;
    }
    return (char *)text;
}
