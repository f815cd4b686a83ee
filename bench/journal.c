/* The writes and syncs of a run's restart file, and nothing else, for a comparison of times: journal FILE NAME makes a
 * file NAME, where none stands, of the bytes of the restart file FILE, in the order in which a run writes them. It reads
 * the lengths of a file that is known to be good, and refuses nothing but a call of the system that fails. */
#include "files.h"

#include <stdlib.h>
#include <unistd.h>

typedef unsigned char byte;

/* How many labels a list has, and what stands behind it. */
static size_t labels_at(const byte **at)
{
    size_t count = (size_t)((*at)[0] | (*at)[1] << 8);
    *at += COUNT;
    for (size_t i = 0; i < count; i++)
        *at += 1 + **at;
    return count;
}

int main(int count, char **words)
{
    if (count != 3)
        return 2;
    size_t file_length;
    byte *bytes = (byte *)bytes_of(words[1], &file_length);
    const byte *at = bytes + GATE + MAGIC;
    size_t variables = labels_at(&at), responses = labels_at(&at);
    int file = begin_restart(words[2], bytes + GATE, (size_t)(at - bytes) - GATE);
    while (*at) {
        const byte *payload = at + GATE;
        size_t failed = variables * DECIMAL + ATTEMPT + KIND;
        size_t length = failed + (payload[failed - KIND] ? responses * DECIMAL : 0);
        append(file, at - bytes, payload, length);
        at = payload + length;
    }
    close(file);
    free(bytes);
    return 0;
}
