// Refuses growths of memory of a program that is run with this library before the system's (LD_PRELOAD): the call of malloc or
// realloc whose number REFUSE says, from 1, and with REFUSE_ALL each later one too. When the program exits, it writes how many
// calls there were to the file that COUNTED names.
#include <fcntl.h>
#include <stdatomic.h>
#include <stdio.h>
#include <stdlib.h>
#include <sys/syscall.h>
#include <unistd.h>

void *__libc_malloc(size_t size);
void *__libc_realloc(void *old, size_t size);

static atomic_ulong calls;
static unsigned long refused;
static int refuses_all;

__attribute__((constructor)) static void begin(void) {
    const char *number = getenv("REFUSE");
    refused = number ? strtoul(number, NULL, 10) : 0;
    refuses_all = getenv("REFUSE_ALL") != NULL;
    atomic_store(&calls, 0);
}

static int is_refused(void) {
    unsigned long number = atomic_fetch_add(&calls, 1) + 1;
    return refused != 0 && (number == refused || (refuses_all && number > refused));
}

void *malloc(size_t size) { return is_refused() ? NULL : __libc_malloc(size); }

void *realloc(void *old, size_t size) { return is_refused() ? NULL : __libc_realloc(old, size); }

// The program ends by this call, and runs nothing that is to run at its end.
void _exit(int status) {
    const char *name = getenv("COUNTED");
    char line[32];
    if (name) {
        int file = open(name, O_WRONLY | O_CREAT | O_TRUNC, 0644);
        int length = snprintf(line, sizeof line, "%lu\n", atomic_load(&calls));
        if (file >= 0 && write(file, line, length) == length)
            close(file);
    }
    syscall(SYS_exit_group, status);
    __builtin_unreachable();
}
