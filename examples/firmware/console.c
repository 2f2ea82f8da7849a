/* The console: putchar, and a printf that knows the flags - 0 + and space, # before x and X, a width and a precision
   (also *), the lengths l and ll, and d i u o x X c s and %. */
#include "library.h"

#define OUT (*(volatile uint32_t *)0x40000000u)

struct field {
    bool left, zeros, plus, space, prefixed;
    int width;
    int precision; /* -1 where there is none */
};

int putchar(int byte)
{
    OUT = (uint32_t)byte;
    return (unsigned char)byte;
}

static void put_many(char byte, int count)
{
    for (; count > 0; count--)
        putchar(byte);
}

/* Puts a prefix, zeros and a text into the field's width, and answers how many bytes that were. */
static int put_field(const struct field *field, const char *prefix, int zeros, const char *text, int length)
{
    int used = (int)strlen(prefix) + zeros + length;
    int blanks = field->width > used ? field->width - used : 0;
    if (!field->left)
        put_many(' ', blanks);
    for (; *prefix != 0; prefix++)
        putchar(*prefix);
    put_many('0', zeros);
    for (int at = 0; at < length; at++)
        putchar(text[at]);
    if (field->left)
        put_many(' ', blanks);
    return used + blanks;
}

/* Writes a number in digits that end in front of `end`, and answers how many they are: none for 0. */
static int write_decimal(char *end, uint64_t value)
{
    int length = 0;
    for (; value != 0; value /= 10)
        end[-++length] = (char)('0' + value % 10);
    return length;
}

/* The same in digits of so many bits. */
static int write_bits(char *end, uint64_t value, int bits, const char *digits)
{
    int length = 0;
    for (; value != 0; value >>= bits)
        end[-++length] = digits[value & ((1u << bits) - 1)];
    return length;
}

/* Puts a number whose digits are known. */
static int put_number(const struct field *field, const char *prefix, const char *digits, int length)
{
    int least = field->precision;
    if (least < 0)
        least = field->zeros && !field->left ? field->width - (int)strlen(prefix) : 1;
    if (least < 1 && field->precision < 0)
        least = 1;
    return put_field(field, prefix, least > length ? least - length : 0, digits, length);
}

static int put_signed(const struct field *field, int64_t value)
{
    char text[22], *end = text + sizeof text;
    int length = write_decimal(end, value < 0 ? 0 - (uint64_t)value : (uint64_t)value);
    return put_number(field, value < 0 ? "-" : field->plus ? "+" : field->space ? " " : "", end - length, length);
}

static int put_unsigned(const struct field *field, uint64_t value, char conversion)
{
    const char *prefix = "";
    char text[22], *end = text + sizeof text;
    int length;
    switch (conversion) {
    case 'x':
    case 'X':
        length = write_bits(end, value, 4, conversion == 'x' ? "0123456789abcdef" : "0123456789ABCDEF");
        if (field->prefixed && value != 0)
            prefix = conversion == 'x' ? "0x" : "0X";
        break;
    case 'o': length = write_bits(end, value, 3, "01234567"); break;
    default: length = write_decimal(end, value); break;
    }
    return put_number(field, prefix, end - length, length);
}

static int put_string(const struct field *field, const char *text)
{
    int length = 0;
    while (length != field->precision && text[length] != 0)
        length++;
    return put_field(field, "", 0, text, length);
}

static const char *read_flags(const char *format, struct field *field)
{
    for (;; format++) {
        switch (*format) {
        case '-': field->left = true; break;
        case '0': field->zeros = true; break;
        case '+': field->plus = true; break;
        case ' ': field->space = true; break;
        case '#': field->prefixed = true; break;
        default: return format;
        }
    }
}

/* Reads a number, or a * which takes the next argument. */
static const char *read_number(const char *format, va_list *arguments, int *number)
{
    if (*format == '*') {
        *number = va_arg(*arguments, int);
        return format + 1;
    }
    for (*number = 0; *format >= '0' && *format <= '9'; format++)
        *number = 10 * *number + (*format - '0');
    return format;
}

static int64_t read_signed(va_list *arguments, int longs)
{
    if (longs == 2)
        return va_arg(*arguments, long long);
    return longs == 1 ? va_arg(*arguments, long) : va_arg(*arguments, int);
}

static uint64_t read_unsigned(va_list *arguments, int longs)
{
    if (longs == 2)
        return va_arg(*arguments, unsigned long long);
    return longs == 1 ? va_arg(*arguments, unsigned long) : va_arg(*arguments, unsigned);
}

/* Puts what a % begins, and steps over it. */
static int put_conversion(const char **format, va_list *arguments)
{
    struct field field = {.precision = -1};
    int longs = 0;
    const char *at = read_flags(*format + 1, &field);
    at = read_number(at, arguments, &field.width);
    if (field.width < 0) {
        field.left = true;
        field.width = -field.width;
    }
    if (*at == '.')
        at = read_number(at + 1, arguments, &field.precision);
    for (; *at == 'l'; at++)
        longs++;
    *format = at + 1;
    switch (*at) {
    case 'd':
    case 'i': return put_signed(&field, read_signed(arguments, longs));
    case 'u':
    case 'o':
    case 'x':
    case 'X': return put_unsigned(&field, read_unsigned(arguments, longs), *at);
    case 's': return put_string(&field, va_arg(*arguments, const char *));
    case 'c': {
        char byte = (char)va_arg(*arguments, int);
        return put_field(&field, "", 0, &byte, 1);
    }
    default: return put_field(&field, "", 0, at, 1);
    }
}

int printf(const char *format, ...)
{
    va_list arguments;
    int count = 0;
    va_start(arguments, format);
    while (*format != 0) {
        if (*format == '%') {
            count += put_conversion(&format, &arguments);
        } else {
            putchar(*format++);
            count++;
        }
    }
    va_end(arguments);
    return count;
}
