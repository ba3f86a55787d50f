/* Texts from a format: <stdio.h>. printf writes to slot 1, which has the console or a reply, with one call for up to
   512 bytes. There is no floating point. */
#include "../lwc.h"
#include <stdarg.h>
#include <stdio.h>
#include <string.h>

/* Where a text goes: into memory, where what is too much is counted and dropped; or to a slot, when `bytes` is full. */
struct sink {
  char *bytes;
  size_t room, used, whole;
  long slot;
};

static void flush(struct sink *to) {
  if (to->used)
    lwc_write(to->slot, to->bytes, (long)to->used);
  to->used = 0;
}

static void put(struct sink *to, char byte) {
  if (to->slot >= 0 && to->used == to->room)
    flush(to);
  if (to->used < to->room)
    to->bytes[to->used++] = byte;
  to->whole++;
}

static void fill(struct sink *to, char byte, long count) {
  while (count-- > 0)
    put(to, byte);
}

/* A directive of a format. */
struct directive {
  int left, zero, plus, space, other, longs, shorts, is_exact;
  long width, precision;
};

static void put_padded(struct sink *to, const struct directive *how, const char *prefix, const char *bytes, long size) {
  long head = (long)strlen(prefix);
  long zeros = how->is_exact && how->precision > size ? how->precision - size : 0;
  long blanks = how->width - head - zeros - size;
  if (how->zero && !how->left && !how->is_exact && blanks > 0) {
    zeros = blanks;
    blanks = 0;
  }
  if (!how->left)
    fill(to, ' ', blanks);
  while (*prefix)
    put(to, *prefix++);
  fill(to, '0', zeros);
  for (long i = 0; i < size; i++)
    put(to, bytes[i]);
  if (how->left)
    fill(to, ' ', blanks);
}

static void put_number(struct sink *to, const struct directive *how, unsigned long value, char kind, int is_negative) {
  char bytes[24];
  unsigned base = kind == 'x' || kind == 'X' || kind == 'p' ? 16 : kind == 'o' ? 8 : 10;
  long at = sizeof bytes;
  const char *digits = kind == 'X' ? "0123456789ABCDEF" : "0123456789abcdef";
  int is_zero = value == 0;
  for (; value; value /= base)
    bytes[--at] = digits[value % base];
  if (is_zero && !(how->is_exact && how->precision == 0))
    bytes[--at] = '0';
  if (base == 8 && how->other && !(at < (long)sizeof bytes && bytes[at] == '0'))
    bytes[--at] = '0';
  const char *prefix = is_negative ? "-" : "";
  if (kind == 'd' && !is_negative)
    prefix = how->plus ? "+" : how->space ? " " : "";
  else if (kind == 'p' || (base == 16 && how->other && !is_zero))
    prefix = kind == 'X' ? "0X" : "0x";
  put_padded(to, how, prefix, bytes + at, (long)sizeof bytes - at);
}

static int is_digit(char byte) { return byte >= '0' && byte <= '9'; }

/* Reads a directive behind its %. Answers where its letter is. */
static const char *read_directive(const char *at, struct directive *how, va_list *given) {
  memset(how, 0, sizeof *how);
  for (;; at++) {
    if (*at == '-')
      how->left = 1;
    else if (*at == '0')
      how->zero = 1;
    else if (*at == '+')
      how->plus = 1;
    else if (*at == ' ')
      how->space = 1;
    else if (*at == '#')
      how->other = 1;
    else
      break;
  }
  if (*at == '*') {
    how->width = va_arg(*given, int);
    at++;
    if (how->width < 0) {
      how->left = 1;
      how->width = -how->width;
    }
  }
  for (; is_digit(*at); at++)
    how->width = 10 * how->width + *at - '0';
  if (*at == '.') {
    how->is_exact = 1;
    if (*++at == '*') {
      how->precision = va_arg(*given, int);
      how->is_exact = how->precision >= 0;
      at++;
    }
    for (; is_digit(*at); at++)
      how->precision = 10 * how->precision + *at - '0';
  }
  for (; *at == 'l' || *at == 'h' || *at == 'z' || *at == 't' || *at == 'j'; at++) {
    how->longs += *at != 'h';
    how->shorts += *at == 'h';
  }
  return at;
}

static long signed_value(const struct directive *how, va_list *given) {
  if (how->longs)
    return va_arg(*given, long);
  int value = va_arg(*given, int);
  return how->shorts > 1 ? (signed char)value : how->shorts ? (short)value : value;
}

static unsigned long unsigned_value(const struct directive *how, va_list *given) {
  if (how->longs)
    return va_arg(*given, unsigned long);
  unsigned value = va_arg(*given, unsigned);
  return how->shorts > 1 ? (unsigned char)value : how->shorts ? (unsigned short)value : value;
}

static void put_directive(struct sink *to, const struct directive *how, char kind, va_list *given) {
  if (kind == 'd' || kind == 'i') {
    long value = signed_value(how, given);
    put_number(to, how, value < 0 ? -(unsigned long)value : (unsigned long)value, 'd', value < 0);
  } else if (kind == 'u' || kind == 'x' || kind == 'X' || kind == 'o') {
    put_number(to, how, unsigned_value(how, given), kind, 0);
  } else if (kind == 'p') {
    put_number(to, how, (unsigned long)va_arg(*given, void *), kind, 0);
  } else if (kind == 'c' || kind == '%') {
    char byte = kind == 'c' ? (char)va_arg(*given, int) : kind;
    struct directive plain = *how;
    plain.zero = plain.is_exact = 0;
    put_padded(to, &plain, "", &byte, 1);
  } else if (kind == 's') {
    const char *text = va_arg(*given, const char *);
    struct directive plain = *how;
    size_t size = how->is_exact ? strnlen(text, (size_t)how->precision) : strlen(text);
    plain.zero = plain.is_exact = 0;
    put_padded(to, &plain, "", text, (long)size);
  } else {
    __builtin_trap();
  }
}

static void format(struct sink *to, const char *form, va_list *given) {
  for (; *form; form++) {
    if (*form != '%') {
      put(to, *form);
      continue;
    }
    struct directive how;
    form = read_directive(form + 1, &how, given);
    put_directive(to, &how, *form, given);
  }
}

int vsnprintf(char *bytes, size_t size, const char *form, va_list given) {
  struct sink to = {bytes, size ? size - 1 : 0, 0, 0, -1};
  va_list copy;
  va_copy(copy, given);
  format(&to, form, &copy);
  va_end(copy);
  if (size)
    bytes[to.used] = 0;
  return (int)to.whole;
}

int snprintf(char *bytes, size_t size, const char *form, ...) {
  va_list given;
  va_start(given, form);
  int whole = vsnprintf(bytes, size, form, given);
  va_end(given);
  return whole;
}

int vprintf(const char *form, va_list given) {
  char bytes[512];
  struct sink to = {bytes, sizeof bytes, 0, 0, LWC_CONSOLE};
  va_list copy;
  va_copy(copy, given);
  format(&to, form, &copy);
  va_end(copy);
  flush(&to);
  return (int)to.whole;
}

int printf(const char *form, ...) {
  va_list given;
  va_start(given, form);
  int whole = vprintf(form, given);
  va_end(given);
  return whole;
}

int putchar(int byte) {
  char written = (char)byte;
  return lwc_write(LWC_CONSOLE, &written, 1) == 1 ? byte : EOF;
}

int puts(const char *text) { return printf("%s\n", text); }
