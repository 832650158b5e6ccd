/* The park bill for C and C++. Link libpark_c.a, which `make library` makes.
   Each call returns 0, or the number of the rule that refuses, and writes the place it speaks of
   (a site, line or generator counted from 1), or 0. A refusal writes nothing else, but for *sites and *size, which are 0.
   Pointers must be valid for their lengths, and no two may overlap; file, list and numbers may be of any length, 0 too. */
#ifndef PARK_H
#define PARK_H

#include <stddef.h>
#include <stdint.h>

#ifdef __cplusplus
extern "C" {
#endif

/* Checks a file. */
uint64_t park_check(const uint8_t *file, size_t file_len, uint64_t *place);

/* Bills one site, counted from 1: consumption, tg (thousandths, up to 99,999), settled, cut, generation, Pc, Pg, P2, P3,
   total, reason. */
uint64_t park_bill_site(const uint8_t *file, size_t file_len, uint64_t bill[11], uint64_t site,
                        uint64_t *place);

/* Bills every site into a list of list_len numbers, eleven a site, and writes the number of sites. */
uint64_t park_bill_park(const uint8_t *file, size_t file_len, uint64_t *list, size_t list_len,
                        uint64_t *place, uint64_t *sites);

/* Both again, with the surcharge read from the operators' table and not worked out. What they return and write is the same. */
uint64_t park_bill_site_by_table(const uint8_t *file, size_t file_len, uint64_t bill[11],
                                 uint64_t site, uint64_t *place);
uint64_t park_bill_park_by_table(const uint8_t *file, size_t file_len, uint64_t *list,
                                 size_t list_len, uint64_t *place, uint64_t *sites);

/* Makes a park file of version 1, at the start of a buffer of file_len bytes, from numbers_len numbers: month, number
   of sites, number of lines, price T and hours t, then five of each site and eight of each line, in the order of the
   file (docs/RULES.md). Writes the file's length to *size; the bytes after it stay. */
uint64_t park_encode(const uint32_t *numbers, size_t numbers_len, uint8_t *file, size_t file_len,
                     uint64_t *place, uint64_t *size);

#ifdef __cplusplus
}
#endif

#endif
