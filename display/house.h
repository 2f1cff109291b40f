/* The house's two functions for the office's C and C++ programs, on x86-64 Linux.
   Link crates/display/out/libdisplay.a, which `rt lib` writes in crates/display. */
#ifndef HOUSE_H
#define HOUSE_H

/* uint32_t. A compiler that comes without a stdint.h gets the same type by its plain name. */
#if defined(__has_include)
#if !__has_include(<stdint.h>)
#define HOUSE_NO_STDINT
#endif
#endif
#ifdef HOUSE_NO_STDINT
typedef unsigned int uint32_t;
#else
#include <stdint.h>
#endif

#ifdef __cplusplus
extern "C" {
#endif

/* The answer of house_compose for a fault. No page has this number: a page number has 20 bits. */
#define HOUSE_FAULT 4294967295u

/* The values of access that are meant. Every value but 0 is a store. */
#define HOUSE_LOAD 0u
#define HOUSE_STORE 1u

/* The guest page that a page-table entry leads to.
     entry    bits 31..12 page number, bit 11 valid, bit 10 protected; the other bits do not matter
     pages    the page count, any number at all
     access   0 for a load; everything else is a store
   Answers the page number, or HOUSE_FAULT where
     - the valid bit is 0, or
     - the page number is not below the page count, or
     - a store meets a protected page. */
uint32_t house_compose(uint32_t entry, uint32_t pages, uint32_t access);

/* The interrupt level of a cause word: the number of its lowest set bit, from 0 to 31, and 32 for
   the cause word 0. */
uint32_t house_level(uint32_t causes);

#ifdef __cplusplus
}
#endif

#endif
