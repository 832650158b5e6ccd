/* Prints the total of each site of the park file on standard input, or the refusal. With the argument `table` the surcharge
   is by the operators' table, and what is printed is the same. It is C and C++ alike.
   Exit status: 0 billed, 1 refused, 2 the input cannot be read, 3 the output cannot be written. */
#include <inttypes.h>
#include <stdio.h>
#include <string.h>

#include "park.h"

/* The status, or 3 with the reason on standard error if what was printed could not be written. */
static int written(int status)
{
    if (fflush(stdout) == 0 && !ferror(stdout))
        return status;
    perror("example: standard output");
    return 3;
}

int main(int argc, char **argv)
{
    /* The longest accepted file has 1,951 bytes. Of a longer one 2,048 are enough: they are refused as the whole is. */
    static uint8_t file[2048];
    static uint64_t list[16 * 11];
    uint64_t place, sites;
    size_t file_len = fread(file, 1, sizeof file, stdin);
    if (ferror(stdin)) {
        perror("example: standard input");
        return 2;
    }
    size_t list_len = sizeof list / sizeof *list;
    uint64_t refused =
        argc == 2 && strcmp(argv[1], "table") == 0
            ? park_bill_park_by_table(file, file_len, list, list_len, &place, &sites)
            : park_bill_park(file, file_len, list, list_len, &place, &sites);
    if (refused != 0) {
        printf("refused,%" PRIu64 ",%" PRIu64 "\n", refused, place);
        return written(1);
    }
    for (uint64_t k = 0; k < sites; k++)
        printf("site %" PRIu64 " owes %" PRIu64 " kopecks\n", k + 1, list[11 * k + 9]);
    return written(0);
}
