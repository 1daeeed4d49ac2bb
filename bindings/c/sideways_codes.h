/* sideways_codes.h: the version of the library, and what the codes of sideways.h say in words. Trusted: written in C, and held
   against the header by tests. */
#ifndef SIDEWAYS_CODES_H
#define SIDEWAYS_CODES_H
#include <stdint.h>
#ifdef __cplusplus
extern "C" {
#endif

/* The SIDEWAYS_VERSION of the header with which the library was made: that of another one is not for it. */
uint32_t sideways_version(void);

/* What a code says, and what to do, as one line of ASCII that ends with a 0; "no code of this library" of another number. It is
   never NULL, and stands as long as the program does. */
const char *sideways_code_text(uint32_t code);

#ifdef __cplusplus
}
#endif
#endif
