/* Kinds of bytes, of ASCII alone: <ctype.h>. They are inline, so nothing of guests/c/rt is needed. */
#ifndef LWC_CTYPE_H
#define LWC_CTYPE_H
#ifdef __cplusplus
extern "C" {
#endif
static inline int isdigit(int byte) { return byte >= '0' && byte <= '9'; }
static inline int islower(int byte) { return byte >= 'a' && byte <= 'z'; }
static inline int isupper(int byte) { return byte >= 'A' && byte <= 'Z'; }
static inline int isalpha(int byte) { return islower(byte) || isupper(byte); }
static inline int isalnum(int byte) { return isalpha(byte) || isdigit(byte); }
static inline int isblank(int byte) { return byte == ' ' || byte == '\t'; }
static inline int isspace(int byte) { return byte == ' ' || (byte >= '\t' && byte <= '\r'); }
static inline int iscntrl(int byte) { return (byte >= 0 && byte < ' ') || byte == 127; }
static inline int isprint(int byte) { return byte >= ' ' && byte < 127; }
static inline int isgraph(int byte) { return byte > ' ' && byte < 127; }
static inline int ispunct(int byte) { return isgraph(byte) && !isalnum(byte); }
static inline int isxdigit(int byte) {
  return isdigit(byte) || (byte >= 'a' && byte <= 'f') || (byte >= 'A' && byte <= 'F');
}
static inline int tolower(int byte) { return isupper(byte) ? byte + 32 : byte; }
static inline int toupper(int byte) { return islower(byte) ? byte - 32 : byte; }
#ifdef __cplusplus
}
#endif
#endif
