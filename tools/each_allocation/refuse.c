// Preloaded into a program, refuses one of its allocations: the one whose number is in REFUSE. Where COUNT names
// a file, the number of allocations is written there at the end.
#define _GNU_SOURCE
#include <dlfcn.h>
#include <errno.h>
#include <stdio.h>
#include <stdlib.h>
#include <sys/syscall.h>
#include <unistd.h>

static unsigned long count, refused;
static void *(*true_malloc)(size_t);
static void *(*true_realloc)(void *, size_t);

__attribute__((constructor)) static void start(void)
{
    const char *number = getenv("REFUSE");
    true_malloc = dlsym(RTLD_NEXT, "malloc");
    true_realloc = dlsym(RTLD_NEXT, "realloc");
    refused = number ? strtoul(number, NULL, 10) : 0;
    count = 0;
}

__attribute__((destructor)) static void end(void)
{
    const char *name = getenv("COUNT");
    FILE *file;
    refused = 0;
    if (name && (file = fopen(name, "w"))) {
        fprintf(file, "%lu\n", count);
        fclose(file);
    }
}

// Programs end by this call, at which no destructor runs.
void _exit(int status)
{
    end();
    for (;;)
        syscall(SYS_exit_group, status);
}

static int is_refused(void)
{
    if (__atomic_add_fetch(&count, 1, __ATOMIC_SEQ_CST) != refused)
        return 0;
    errno = ENOMEM;
    return 1;
}

void *malloc(size_t size)
{
    if (!true_malloc)
        true_malloc = dlsym(RTLD_NEXT, "malloc");
    return is_refused() ? NULL : true_malloc(size);
}

void *realloc(void *old, size_t size)
{
    if (!true_realloc)
        true_realloc = dlsym(RTLD_NEXT, "realloc");
    return is_refused() ? NULL : true_realloc(old, size);
}
