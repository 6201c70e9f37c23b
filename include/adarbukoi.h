/* Adarbukoi: a proved codec for smart-card directories (ISO/IEC 7816-15).
 *
 * Each function answers 0 for accepted, or the number of a refusal; then the number pointed to is the refusal's place,
 * and no other byte or number that the caller lent has changed. Nothing is asked of the caller but C's own rules: each
 * pointer is to as many bytes (or numbers) as the length beside it says, and what is written to overlaps nothing else.
 *
 * STACK: a call takes less than 256 KiB of the caller's stack, and more than 128: a thread of 128 KiB is too small.
 * THREADS: no function keeps or shares anything, so any number of calls may run at once, each on memory of its own.
 * No function allocates; memcpy and memset are the only functions of the C library that the code calls.
 *
 * Link with libadarbukoi.a, which `tools/library` writes to target/staticlib/; README.md says how to install both.
 */
#ifndef ADARBUKOI_H
#define ADARBUKOI_H

#include <stddef.h>
#include <stdint.h>

#ifdef __cplusplus
extern "C" {
#endif

#define ADARBUKOI_VERSION_MAJOR 0
#define ADARBUKOI_VERSION_MINOR 1
#define ADARBUKOI_VERSION "0.1"

/* The most bytes that an accepted dump has, its book, and a label; and the most objects. A buffer of BOOK_MOST holds every
 * book. A label has at most 255 characters, of one to four bytes each. */
#define ADARBUKOI_DUMP_MOST 32768
#define ADARBUKOI_BOOK_MOST 131072
#define ADARBUKOI_LABEL_MOST 1020
#define ADARBUKOI_OBJECTS_MOST 128

/* Refusals. The place is a dump offset, but for ROOM (the size needed, in bytes, or for the list in numbers) and for
 * SIZE, BOOK and NONE, whose place is 0. */
enum {
    ADARBUKOI_SIZE = 1,     /* the dump is over 32,768 bytes */
    ADARBUKOI_FRAME = 2,    /* a dump record is broken, missing, of the wrong kind, a file or path length is not allowed, or a
                               record length of a record file runs over */
    ADARBUKOI_TAG = 3,      /* bad or cut-off tag form, or not the component due here, or one more than is due */
    ADARBUKOI_LENGTH = 4,   /* bad length form, cut off, or beyond its container */
    ADARBUKOI_MISSING = 5,  /* a container ends early, or a template of ours in EF.DIR has neither path nor 73; the place is
                               its end */
    ADARBUKOI_RANGE = 7,    /* outside a stated bound, lengths included (of a label in characters); the 256th
                               condition of one list */
    ADARBUKOI_RULE = 8,     /* index without length or the reverse; pwdFlags bits 6 and 7 both set */
    ADARBUKOI_DEPTH = 9,    /* one level too many */
    ADARBUKOI_MANY = 10,    /* the 129th object */
    ADARBUKOI_FILL = 11,    /* fill bytes differ */
    ADARBUKOI_PATHS = 12,   /* EF.OD names a path twice, or the files do not follow it */
    ADARBUKOI_TWICE = 13,   /* two authentication objects with equal own authId */
    ADARBUKOI_ROOM = 14,    /* the lent output is too short */
    ADARBUKOI_BOOK = 15,    /* no accepted dump has this book */
    ADARBUKOI_NONE = 16,    /* the object, field or row is not there */
    ADARBUKOI_SECOND = 17,  /* a record of a record file holds a second object */

    /* what is wrong with a value, 61 to 68; of several at one element the first is told */
    ADARBUKOI_BAD_BOOLEAN = 61,     /* a BOOLEAN is not one byte of 00 or FF */
    ADARBUKOI_BAD_INTEGER = 62,     /* an INTEGER or ENUMERATED is empty or too long in form */
    ADARBUKOI_BAD_BITS = 63,        /* a bit string is empty, has a bad unused count or unused bits set */
    ADARBUKOI_TRAILING_BITS = 64,   /* a bit string keeps trailing zero bits */
    ADARBUKOI_BAD_TEXT = 65,        /* a text is not well-formed UTF-8 */
    ADARBUKOI_BAD_TIME = 66,        /* a time is not YYYYMMDDhhmmssZ, or no such day or time is */
    ADARBUKOI_BAD_NULL = 67,        /* a NULL has contents */
    ADARBUKOI_DEFAULT_WRITTEN = 68  /* a component that equals its default is written out */
};

/* Links: the first number of a row of the list. */
enum {
    ADARBUKOI_AUTH = 1,      /* an object's authId, and the authentication object that bears it */
    ADARBUKOI_CONDITION = 2, /* an identifier in an access condition, and the same */
    ADARBUKOI_CERT = 3       /* a private key's iD, and each certificate that bears it */
};

/* The record that opens an object in the book: entry tag, object tag, 2-byte file number, 2-byte offset of the object's tag in
 * that file, low bytes first. File 0 is EF.OD, 1 the dump's first directory file. It is no field of the object, so
 * adarbukoi_field answers NONE for it; a caller finds it by going over the book's records. */
enum { ADARBUKOI_OBJECT = 0x0120 };

/* Kinds of an object's fields. A number has 4 bytes, its low byte first; in flags named bit i counts 2^i. */
enum {
    ADARBUKOI_LABEL = 0x0121,                /* text: UTF-8, at most 255 characters; no NUL is behind it */
    ADARBUKOI_FLAGS = 0x0122,                /* number: 0 private, 1 modifiable, 2 internal */
    ADARBUKOI_AUTH_ID = 0x0123,              /* bytes: the identifier that protects the object */
    ADARBUKOI_USER_CONSENT = 0x0124,         /* number */
    ADARBUKOI_ACCESS_MODE = 0x0125,          /* number: of a rule; its condition follows */
    ADARBUKOI_ALWAYS = 0x0126,               /* nothing */
    ADARBUKOI_IDENTIFIER = 0x0127,           /* bytes */
    ADARBUKOI_OTHER_CONDITION = 0x0128,      /* the element */
    ADARBUKOI_NOT = 0x0129,                  /* nothing; one condition follows */
    ADARBUKOI_AND = 0x012A,                  /* 2-byte count; so many conditions follow */
    ADARBUKOI_OR = 0x012B,                   /* the same */
    ADARBUKOI_RULE_REST = 0x012C,            /* elements */
    ADARBUKOI_COMMON_REST = 0x012F,          /* elements */
    ADARBUKOI_KEY_ID = 0x0130,               /* bytes */
    ADARBUKOI_KEY_USAGE = 0x0131,            /* number: 0 encipher, 1 decipher, 2 sign, 3 signRecover, 4 keyEncipher, 5 keyDecipher,
                                                6 verify, 7 verifyRecover, 8 derive, 9 nonRepudiation */
    ADARBUKOI_KEY_NATIVE = 0x0132,           /* one byte, 00; absent: native */
    ADARBUKOI_KEY_ACCESS_FLAGS = 0x0133,     /* number: 0 sensitive, 1 extractable, 2 alwaysSensitive, 3 neverExtractable, 4 cardGenerated */
    ADARBUKOI_KEY_REFERENCE = 0x0134,        /* number, -128 to 255: a negative one in two's complement, so an int32_t */
    ADARBUKOI_KEY_START_DATE = 0x0135,       /* YYYYMMDDhhmmssZ */
    ADARBUKOI_KEY_END_DATE = 0x0136,         /* the same */
    ADARBUKOI_KEY_REST = 0x013F,             /* elements */
    ADARBUKOI_CERTIFICATE_ID = 0x0140,       /* bytes */
    ADARBUKOI_CERTIFICATE_AUTHORITY = 0x0141, /* one byte, 01; absent: none */
    ADARBUKOI_CERTIFICATE_REST = 0x014F,     /* elements */
    ADARBUKOI_OWN_AUTH_ID = 0x0150,          /* bytes: what an authentication object bears */
    ADARBUKOI_AUTH_REFERENCE = 0x0151,       /* number */
    ADARBUKOI_SE_IDENTIFIER = 0x0152,        /* number */
    ADARBUKOI_AUTHENTICATION_REST = 0x015F,  /* elements */
    ADARBUKOI_CONTAINER = 0x0160,            /* contents of a data container's class, also where empty */
    ADARBUKOI_SUBCLASS = 0x0170,             /* the element */
    ADARBUKOI_PATH = 0x0180,                 /* bytes */
    ADARBUKOI_PATH_INDEX = 0x0181,           /* number */
    ADARBUKOI_PATH_LENGTH = 0x0182,          /* number */
    ADARBUKOI_MODULUS_LENGTH = 0x0183,       /* number */
    ADARBUKOI_CERTIFICATE_VALUE = 0x0184,    /* the element, where it is no path */
    ADARBUKOI_TYPE_REST = 0x018F,            /* elements */
    ADARBUKOI_PWD_FLAGS = 0x0190,            /* number: docs/FORMAT.md has its names */
    ADARBUKOI_PWD_TYPE = 0x0191,             /* number: 0 bcd, 1 ascii-numeric, 2 utf8, 3 half-nibble-bcd, 4 iso9564-1 */
    ADARBUKOI_PWD_MIN_LENGTH = 0x0192,       /* number */
    ADARBUKOI_PWD_STORED_LENGTH = 0x0193,    /* number */
    ADARBUKOI_PWD_MAX_LENGTH = 0x0194,       /* number */
    ADARBUKOI_PWD_REFERENCE = 0x0195,        /* number; absent: 0 */
    ADARBUKOI_PWD_PAD_CHAR = 0x0196,         /* one byte */
    ADARBUKOI_PWD_LAST_CHANGE = 0x0197,      /* YYYYMMDDhhmmssZ */
    ADARBUKOI_PWD_REST = 0x019F,             /* elements */
    ADARBUKOI_OTHER_TYPE = 0x01A0            /* the element */
};

/* Kinds of EF.DIR's records, which are the last of a book, where the dump has one. They are no object's, so adarbukoi_field
 * answers NONE for them; a caller finds them by going over the book's records. */
enum {
    ADARBUKOI_DIR = 0x0200,                  /* nothing: EF.DIR is there */
    ADARBUKOI_TEMPLATE = 0x0201,             /* one byte: an application template begins; 01 it is ours, 00 it is not */
    ADARBUKOI_TEMPLATE_ID = 0x0202,          /* bytes: its application identifier */
    ADARBUKOI_TEMPLATE_LABEL = 0x0203,       /* text */
    ADARBUKOI_TEMPLATE_PATH = 0x0204,        /* bytes */
    ADARBUKOI_DISCRETIONARY = 0x0205,        /* nothing: it has a 73; what is inside follows */
    ADARBUKOI_PROVIDER_ID = 0x0206,          /* the element */
    ADARBUKOI_ODF_PATH = 0x0207,             /* bytes */
    ADARBUKOI_ODF_PATH_INDEX = 0x0208,       /* number */
    ADARBUKOI_ODF_PATH_LENGTH = 0x0209,      /* number */
    ADARBUKOI_INFO_PATH = 0x020A,            /* bytes */
    ADARBUKOI_INFO_PATH_INDEX = 0x020B,      /* number */
    ADARBUKOI_INFO_PATH_LENGTH = 0x020C,     /* number */
    ADARBUKOI_DISCRETIONARY_AID = 0x020D,    /* bytes */
    ADARBUKOI_DATA_OBJECTS = 0x020E,         /* the element */
    ADARBUKOI_DISCRETIONARY_REST = 0x020F,   /* elements */
    ADARBUKOI_TEMPLATE_REST = 0x0210,        /* elements */
    ADARBUKOI_DIR_ELEMENT = 0x0211,          /* the element, which is no template */
    ADARBUKOI_DIR_FILL = 0x0212              /* fill byte, 2-byte count */
};

/* The answering object of a link that nothing answers. */
#define ADARBUKOI_UNANSWERED UINT32_C(4294967295)

/* A dump into its book. Accepted: *length_or_place is the book's length, and the bytes past it are what they were. */
uint32_t adarbukoi_read(const uint8_t *dump, size_t dump_len, uint8_t *book, size_t book_room, uint64_t *length_or_place);

/* A book into the one dump that has it. Accepted: *length_or_place is the dump's length. Refuses BOOK, then ROOM. */
uint32_t adarbukoi_write(const uint8_t *book, size_t book_len, uint8_t *dump, size_t dump_room, uint64_t *length_or_place);

/* The links of a book, four numbers a row: link (ADARBUKOI_AUTH ..), object, book offset of the stating record,
 * answering object or ADARBUKOI_UNANSWERED. Accepted: *length_or_place is how many numbers were written. Refuses BOOK, then ROOM. */
uint32_t adarbukoi_list(const uint8_t *book, size_t book_len, uint32_t *rows, size_t rows_room, uint64_t *length_or_place);

/* Where an object's first record of a kind (ADARBUKOI_LABEL ..) is. Accepted: *offset_or_place is its payload's book offset and
 * *length its length; on a refusal *length is what it was. Refuses BOOK, then NONE. */
uint32_t adarbukoi_field(const uint8_t *book, size_t book_len, uint32_t object, uint32_t kind, uint64_t *offset_or_place, uint64_t *length);

/* Why a row of the list is as it is. */
enum {
    ADARBUKOI_MET = 1,       /* the link is answered: where that row's answering object bears the identifier */
    ADARBUKOI_NO_OBJECT = 2, /* the book has no object of the class that answers the link */
    ADARBUKOI_ELSEWHERE = 3, /* the identifier stands in a record that does not state a link of the same number: the first one */
    ADARBUKOI_NOWHERE = 4    /* it stands in no such record */
};

/* Why row number `row`, from 0, of a book's list is as it is. Accepted: *answer is ADARBUKOI_MET .. ADARBUKOI_NOWHERE; for MET
 * and ELSEWHERE *offset_or_place is a record's book offset and *kind its kind (ADARBUKOI_AUTH_ID, _IDENTIFIER, _KEY_ID,
 * _CERTIFICATE_ID or _OWN_AUTH_ID), for the others both are 0. On a refusal *answer and *kind are what they were. Refuses BOOK,
 * then NONE where the list has no such row. */
uint32_t adarbukoi_why(const uint8_t *book, size_t book_len, uint64_t row, uint32_t *answer, uint64_t *offset_or_place, uint32_t *kind);

#ifdef __cplusplus
}
#endif

#endif
