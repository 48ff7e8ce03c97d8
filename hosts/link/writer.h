/* The process that writes a part of a transcript. It gets records through a pipe and turns them into lines, so that no packet waits for
   this. */
#pragma once
#include <stdatomic.h>
#include <stdint.h>

/* The kinds of records, with their bodies. Numbers have 8 bytes. The kinds up to CONFIGURE are entries, which the last line counts. */
enum kind {
    SUBMIT,    /* a struct dn_packet, and its struct dn_fate */
    COLLECT,   /* the moment, and a struct dn_delivery for each packet */
    ADVANCE,   /* the moment, and the moment that counted */
    CONFIGURE, /* the status, and the line */
    CONTENT,   /* the number of the next packet's content */
    REMARK,    /* the remark's text */
    END        /* nothing: the part ends */
};

struct record {
    uint64_t kind;
    uint64_t size; /* bytes of the body */
    unsigned char body[];
};

enum { TIMES = 3 }; /* lines are at most three times as long as their records */

/* Returns the bytes from a record, whose body has `size` bytes, to the next record: a multiple of 8. */
static inline uint64_t whole_size(uint64_t size) { return sizeof(struct record) + (size + 7) / 8 * 8; }

/* Runs the process until the pipe ends. Adds to `spared` by how many bytes the lines are shorter than they can be. */
_Noreturn void write_part(int pipe, int file, const char *path, _Atomic uint64_t *spared);
