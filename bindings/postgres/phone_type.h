/* One row of the type `phone`: 24 bytes that no table of the world changes. */
#ifndef PHONE_TYPE_H
#define PHONE_TYPE_H
#include "postgres.h"
#include "phone.h"

/* The most digits that a national number and an extension have here. */
#define NATIONAL_DIGITS 17
#define EXTENSION_DIGITS 24

/* The bytes of a value are all set, so that equal values have equal bytes. */
typedef struct {
    uint64 value;                            /* the national number without its leading zeros */
    uint16 code;                             /* the calling code */
    uint8 zeros;                             /* how many zeros stand before the value */
    uint8 digits;                            /* how many digits the extension has */
    uint8 extension[EXTENSION_DIGITS / 2];   /* two digits a byte, the first in the high half; 0 behind */
} phone_row;

/* What a row writes at most: a plus sign, the digits, `;ext=` and its digits, and a zero byte. */
#define PHONE_ROW_TEXT (1 + 3 + NATIONAL_DIGITS + 5 + EXTENSION_DIGITS + 1)

#define PG_GETARG_PHONE(n) ((const phone_row *)PG_GETARG_POINTER(n))

/* Whether the numbers of a row are within their bounds, and its code is the one that its E.164 text
 * is read with. */
extern bool phone_row_is_sound(const phone_row *row);

/* Writes a row as E.164 text, its extension behind `;ext=`, with a zero byte, and gives its length. */
extern int phone_row_text(const phone_row *row, char out[PHONE_ROW_TEXT]);

/* Makes the row of a number whose texts stand in `bytes`. False: it has no room for the number. */
extern bool phone_row_of(const phone_number *number, const uint8_t *bytes, phone_row *row);

/* Makes the number of a row, and writes its extension's digits to `bytes`. */
extern void phone_row_number(const phone_row *row, phone_number *number, uint8_t bytes[EXTENSION_DIGITS]);
#endif
