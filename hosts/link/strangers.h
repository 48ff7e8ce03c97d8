/* Strangers: IPv6 addresses. On the links an address of 240.0.0.0/4 stands for each, in the order in which they were first seen. */
#pragma once
#include <stdint.h>

#include "transcript.h"

/* Returns a table without strangers, which the transcript will name. */
struct strangers *new_strangers(struct transcript *transcript);

/* Returns the address that stands for an IPv6 address. At first sight, a remark in the transcript names both. Behind the first 65,536
   addresses, all others share one. */
uint32_t stand_in(struct strangers *strangers, const unsigned char address[16]);
