/* What the parts of a simulated machine's first process share. */
#pragma once
#include <stdbool.h>
#include <stddef.h>
#include <stdint.h>
#include <sys/types.h>

/* The launcher's folder, by a path that is the same in all runs. */
#define FOLDER "/run/hinge"
#define FOR_EVER (100000000ULL * SECOND) /* ns */
enum { SECOND = 1000000000, CANNOT_EXECUTE = 126, NOT_FOUND = 127, SIGNALLED = 128, GROUPS = 1000 };

/* The user who asked, with the place, words and environment of the command. */
struct user {
    uid_t uid;
    gid_t gid, groups[GROUPS];
    size_t count;
    mode_t mask;
    char *place, **words, **names;
    bool in_rooms;
    int unbegun; /* a file of the launcher's, for the name of a command that can't be executed */
};

/* What the launcher planned: strings that end in 0. */
struct job {
    char *bytes;
    size_t length, at;
};

char *must_next(struct job *job);

void tell(const char *path, const char *text);
void keep(const char *from, const char *to); /* copies what a file of the kernel's tells now */
_Noreturn void stop(const char *what);
void must_mount(const char *source, const char *target, const char *kind, unsigned long flags, const char *data);
uint64_t now(void);
/* Becomes a command of the user's, whose words are found by its PATH. */
_Noreturn void become(const struct user *user, char **words);

/* disks.c */
void serve_disks(const char *path);
