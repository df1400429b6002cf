#include "keybook.h"
#include <stdio.h>

/* A frame and a key buffer of no bytes, by NULL and by a pointer; and a book between guards. */
static struct {
    uint32_t before[4];
    keybook book;
    uint32_t after[4];
} lent;

static unsigned code(const uint8_t *frame, uint8_t *key, size_t key_length) {
    uint8_t reply[KEYBOOK_REPLY_BYTES];
    keybook_call(&lent.book, frame, 0, key, key_length, reply);
    return reply[0];
}

int main(void) {
    uint8_t key[KEYBOOK_KEY_BYTES];
    if (keybook_size() != KEYBOOK_BYTES || keybook_align() != KEYBOOK_ALIGN)
        return 1;
    for (int i = 0; i < 4; i++)
        lent.before[i] = lent.after[i] = 0xA5A5A5A5u;
    keybook_empty(&lent.book);
    printf("%02X %02X", code(NULL, key, sizeof key), code(NULL, NULL, 0));
    printf(" %02X %02X\n", code(key, key, 0), code(key, key, sizeof key));
    for (int i = 0; i < 4; i++)
        if (lent.before[i] != 0xA5A5A5A5u || lent.after[i] != 0xA5A5A5A5u)
            return 2;
    return 0;
}
