#define _GNU_SOURCE
#include "clock_tables.h"

#include <link.h>
#include <stdbool.h>
#include <stdint.h>
#include <string.h>
#include <sys/mman.h>
#include <unistd.h>

enum { MOST_KNOWN = 4096, TABLES = 2 };

/* The libraries whose tables have been rewritten. NOLINTBEGIN(cppcoreguidelines-avoid-non-const-global-variables) */
static struct {
    ElfW(Addr) bases[MOST_KNOWN]; /* their places in memory */
    size_t count;                 /* the number of libraries */
    unsigned long long unloaded;  /* how many libraries the process had unloaded */
} known;
/* NOLINTEND(cppcoreguidelines-avoid-non-const-global-variables) */

/* A library whose tables are rewritten. */
struct library {
    ElfW(Addr) base;                   /* its place in memory */
    const ElfW(Sym) * symbols;         /* its symbols */
    const char *names;                 /* the names of the symbols */
    const ElfW(Rela) * tables[TABLES]; /* its relocations, and the relocations of its procedure linkage table */
    size_t sizes[TABLES];              /* bytes of these tables */
    char *read_only;                   /* the pages that are read-only since the start, or NULL */
    size_t read_only_size;             /* bytes of these pages */
    bool is_writable;                  /* whether these pages are writable now */
};

/* The lists of functions. */
struct lists {
    const struct function *of_all;
    const struct function *of_openssl; /* NULL for a library that isn't of OpenSSL */
};

void *own_of(const struct function *functions, const char *name) {
    while (functions->name && strcmp(functions->name, name) != 0) functions++;
    return functions->own;
}

/* Whether a library is known. After the process has unloaded one, another library may be in its place, so none is known any more. */
static bool is_known(const struct dl_phdr_info *info) {
    size_t place = 0;
    if (known.unloaded != info->dlpi_subs) return false;
    while (place < known.count && known.bases[place] != info->dlpi_addr) place++;
    return place < known.count;
}

static void note_known(const struct dl_phdr_info *info) {
    if (known.unloaded != info->dlpi_subs) known.count = 0;
    known.unloaded = info->dlpi_subs;
    if (known.count < MOST_KNOWN) known.bases[known.count++] = info->dlpi_addr;
}

/* Returns the last segment of a type, or NULL. */
static const ElfW(Phdr) * segment_of(const struct dl_phdr_info *info, unsigned type) {
    const ElfW(Phdr) *found = NULL;
    for (size_t n = 0; n < info->dlpi_phnum; n++)
        if (info->dlpi_phdr[n].p_type == type) found = &info->dlpi_phdr[n];
    return found;
}

/* Whether the library is this one, which contains the function. */
static bool is_this_library(const struct dl_phdr_info *info) {
    uintptr_t address = (uintptr_t)rewrite_tables;
    for (size_t n = 0; n < info->dlpi_phnum; n++) {
        const ElfW(Phdr) *segment = &info->dlpi_phdr[n];
        uintptr_t begin = info->dlpi_addr + segment->p_vaddr;
        if (segment->p_type == PT_LOAD && address >= begin && address < begin + segment->p_memsz) return true;
    }
    return false;
}

/* Whether the library is the C library, its loader or the kernel's. */
static bool is_of_system(const char *name) { return strstr(name, "linux-vdso") || strstr(name, "/ld-linux") || strstr(name, "/libc.so"); }

static bool is_of_openssl(const char *name) { return strstr(name, "libcrypto") || strstr(name, "libssl") || strstr(name, "cryptography/hazmat"); }

/* The loader has places as numbers. NOLINTBEGIN(performance-no-int-to-ptr) */

/* Reads where a library's symbols and tables are. Places don't contain the base in musl. */
static void read_dynamic(struct library *library, const ElfW(Dyn) * entry) {
    for (; entry->d_tag != DT_NULL; entry++) {
        ElfW(Addr) address = entry->d_un.d_ptr;
        const void *place = (const void *)(address < library->base ? address + library->base : address);
        switch (entry->d_tag) {
        case DT_SYMTAB: library->symbols = place; break;
        case DT_STRTAB: library->names = place; break;
        case DT_RELA: library->tables[0] = place; break;
        case DT_RELASZ: library->sizes[0] = entry->d_un.d_val; break;
        case DT_JMPREL: library->tables[1] = place; break;
        case DT_PLTRELSZ: library->sizes[1] = entry->d_un.d_val; break;
        default: break;
        }
    }
}

/* Notes the pages that are read-only since the start: whole pages from the one in which the segment begins. */
static void note_read_only(struct library *library, const ElfW(Phdr) * segment) {
    size_t page = (size_t)sysconf(_SC_PAGESIZE);
    ElfW(Addr) begin = (library->base + segment->p_vaddr) & ~(page - 1);
    ElfW(Addr) end = (library->base + segment->p_vaddr + segment->p_memsz) & ~(page - 1);
    library->read_only = (char *)begin;
    library->read_only_size = end - begin;
}

/* Whether a relocation has a function's place. */
static bool is_of_function(const ElfW(Rela) * relocation) {
    switch (ELF64_R_TYPE(relocation->r_info)) {
#if defined(__x86_64__)
    case R_X86_64_JUMP_SLOT:
    case R_X86_64_GLOB_DAT: return true;
#elif defined(__aarch64__)
    case R_AARCH64_JUMP_SLOT:
    case R_AARCH64_GLOB_DAT: return true;
#endif
    default: return false;
    }
}

/* Writes a function's place into a table. Read-only pages become writable before. If the system refuses this, the table stays as it is. */
static void write_entry(struct library *library, void **place, void *own) {
    char *at = (char *)place;
    bool is_read_only = library->read_only && at >= library->read_only && at < library->read_only + library->read_only_size;
    if (*place == own) return;
    if (is_read_only && !library->is_writable)
        library->is_writable = mprotect(library->read_only, library->read_only_size, PROT_READ | PROT_WRITE) == 0;
    if (!is_read_only || library->is_writable) *place = own;
}

/* Rewrites the entries of a table for functions in the lists. */
static void rewrite_table(struct library *library, const ElfW(Rela) * table, size_t size, const struct lists *lists) {
    for (size_t n = 0; n < size / sizeof *table; n++) {
        const char *name = library->names + library->symbols[ELF64_R_SYM(table[n].r_info)].st_name;
        if (!is_of_function(&table[n])) continue;
        void *own = own_of(lists->of_all, name);
        if (!own && lists->of_openssl) own = own_of(lists->of_openssl, name);
        if (own) write_entry(library, (void **)(library->base + table[n].r_offset), own);
    }
}

static void rewrite_library(const struct dl_phdr_info *info, const ElfW(Phdr) * dynamic, const struct lists *lists) {
    struct library library = {.base = info->dlpi_addr};
    const ElfW(Phdr) *read_only = segment_of(info, PT_GNU_RELRO);
    read_dynamic(&library, (const void *)(library.base + dynamic->p_vaddr));
    if (read_only) note_read_only(&library, read_only);
    if (!library.symbols || !library.names) return;
    for (size_t n = 0; n < TABLES; n++)
        if (library.tables[n]) rewrite_table(&library, library.tables[n], library.sizes[n], lists);
    if (library.is_writable) mprotect(library.read_only, library.read_only_size, PROT_READ);
}
/* NOLINTEND(performance-no-int-to-ptr) */

/* Rewrites the tables of a library that isn't known. The loader calls this for each library, until the result isn't 0. */
static int rewrite_if_new(struct dl_phdr_info *info, size_t size, void *state) {
    struct lists lists = *(const struct lists *)state;
    const ElfW(Phdr) *dynamic = segment_of(info, PT_DYNAMIC);
    (void)size;
    if (is_known(info)) return 0;
    note_known(info);
    if (!dynamic || is_this_library(info) || is_of_system(info->dlpi_name)) return 0;
    if (!is_of_openssl(info->dlpi_name)) lists.of_openssl = NULL;
    rewrite_library(info, dynamic, &lists);
    return 0;
}

void rewrite_tables(const struct function *of_all, const struct function *of_openssl) {
    struct lists lists = {of_all, of_openssl};
    dl_iterate_phdr(rewrite_if_new, &lists);
}
