/* The tables of relocations by which libraries find the functions of other libraries. */
#pragma once

/* A function of the C library, and the function that replaces it. The name is NULL at the end of a list. */
struct function {
    const char *name;
    void *own;
};

/* Returns the function that replaces a function of a list, or NULL. */
__attribute__((visibility("hidden"))) void *own_of(const struct function *functions, const char *name);

/* Rewrites the tables of all libraries that are loaded now, except this one and the C library: each gets the functions `of_all`, and the
   libraries of OpenSSL also the functions `of_openssl`. */
__attribute__((visibility("hidden"))) void rewrite_tables(const struct function *of_all, const struct function *of_openssl);
