/*
 * The proved key book of a receiver card, for programs in C99 and later, and in C++.
 *
 * The book lies in memory of the caller's: keybook_empty makes an empty one there, and keybook_call changes it. There is nothing beside it, so a
 * program may have any number of books, move one, or copy one as a struct. What lies in it is the library's affair: reading or writing it otherwise
 * is undefined.
 *
 * Link crates/card/out/libcard.a, which `rt lib` in crates/card proves and builds. It is for x86-64 (v2) and wants memcpy and memset of the C library.
 *
 * Threads: there is no state but the books. Calls on different books may run at the same time; on one book, one call at a time.
 */
#ifndef KEYBOOK_H
#define KEYBOOK_H

#include <stddef.h>
#include <stdint.h>

#ifdef __cplusplus
extern "C" {
#endif

#define KEYBOOK_BYTES 1540
#define KEYBOOK_ALIGN 4
#define KEYBOOK_KEY_BYTES 16
#define KEYBOOK_REPLY_BYTES 14

/* A book. Numbers of 32 bits, for their alignment. */
typedef struct keybook {
    uint32_t opaque[KEYBOOK_BYTES / 4];
} keybook;

/* No compiler may have padded it. */
typedef char keybook_has_its_size[sizeof(keybook) == KEYBOOK_BYTES ? 1 : -1];

/* What the library that is linked has for KEYBOOK_BYTES and KEYBOOK_ALIGN: where they differ from this header's, nothing else may be called. */
size_t keybook_size(void);
size_t keybook_align(void);

/* Makes an empty book in memory that may hold anything. `book` is not NULL. */
void keybook_empty(keybook *book);

/*
 * One call of the book. It takes a byte string and answers what it did, in KEYBOOK_REPLY_BYTES bytes: code 1, place of the right 1, value 4, purse 4,
 * replay counter of the key 4, numbers big-endian. Any byte string gets a reply, and every call returns.
 *
 * book    where keybook_empty made a book; not NULL.
 * frame   frame_length bytes, which are read. With length 0 it may be NULL; the reply is then code 11.
 * key     key_length bytes. A grant, code 01, writes the key there, and nothing else writes it. Any length but KEYBOOK_KEY_BYTES gets code 10. With
 *         length 0 it may be NULL.
 * reply   KEYBOOK_REPLY_BYTES bytes, which are written; not NULL.
 *
 * No two of the four overlap.
 */
void keybook_call(keybook *book, const uint8_t *frame, size_t frame_length, uint8_t *key, size_t key_length, uint8_t *reply);

#ifdef __cplusplus
}
#endif

#endif
