/* Makes Park Alder's file from its numbers and writes it to standard output. It is C and C++ alike.
   An argument is the room for the file in bytes, at most 1,534; without one it is 1,534.
   Exit status: 0 made, 1 refused, 2 another argument, 3 the output cannot be written. */
#include <inttypes.h>
#include <stdio.h>
#include <stdlib.h>

#include "park.h"

static const uint32_t alder[] = {
    /* month, sites, lines, T, t */
    4, 2, 3, 500000, 200,
    /* each site: power, flag, Q, P, h */
    400, 1, 50, 0, 0,
    100, 0, 0, 0, 100,
    /* each line: from, to, mark, D, WP, WQ, WG, WN */
    0, 1, 1, 669, 40000, 30000, 0, 0,
    1, 2, 1, 700, 10000, 4000, 0, 0,
    0, 2, 0, 669, 5000, 0, 0, 0,
};

/* The status, or 3 with the reason on standard error if the output could not be written. */
static int written(int status)
{
    if (fflush(stdout) == 0 && !ferror(stdout))
        return status;
    perror("example_encode: standard output");
    return 3;
}

int main(int arguments, char **argument)
{
    /* The longest file of version 1 has 1,534 bytes. */
    static uint8_t file[1534];
    size_t room = sizeof file;
    uint64_t place, size;
    if (arguments > 1) {
        char *end;
        room = strtoul(argument[1], &end, 10);
        if (end == argument[1] || *end != 0 || room > sizeof file) {
            fprintf(stderr, "example_encode: room for the file: 0 to %u bytes\n", (unsigned)sizeof file);
            return 2;
        }
    }
    uint64_t refused = park_encode(alder, sizeof alder / sizeof *alder, file, room, &place, &size);
    if (refused != 0) {
        printf("refused,%" PRIu64 ",%" PRIu64 "\n", refused, place);
        return written(1);
    }
    fwrite(file, 1, size, stdout);
    return written(0);
}
