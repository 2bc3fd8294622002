/* Mulavedrop: e-matching over write plans. See README.md for the refusal numbers. */
#ifndef MULAVEDROP_H
#define MULAVEDROP_H

#include <stdbool.h>
#include <stddef.h>
#include <stdint.h>

#ifdef __cplusplus
extern "C" {
#endif

/* number: 0, or the refusal's number.
   count: rows written, or the class; 0 where neither is meant. */
typedef struct {
    uint32_t number;
    uint64_t count;
} mulavedrop_answer;

/* A slice is a pointer and a length in words. */
mulavedrop_answer mulavedrop_check_table(const uint32_t *table, size_t table_len);

#ifdef __cplusplus
}
#endif

#endif
