// Plays a schedule file by the library that is linked in, and watches the service byte meanwhile.
//
// The service byte, the file, the registers and the report memory lie on pages that may not be touched. The instruction
// that touches one raises SIGSEGV; it is let through alone (by the processor's trap flag), and the pages are closed
// again. So each store into the service byte is seen with its value, and at each other access what the byte holds then.
// The handlers look at the bytes through a second mapping of the same memory. For Linux on x86-64.
//
// Usage: watch FILE played|fault FORMER
#define _GNU_SOURCE
#include <signal.h>
#include <stdint.h>
#include <stdio.h>
#include <stdlib.h>
#include <string.h>
#include <sys/mman.h>
#include <ucontext.h>
#include <unistd.h>

size_t play_file(const uint8_t *file, size_t file_length, uint8_t *registers, size_t register_count, uint8_t *memory,
                 size_t memory_length, uint8_t *service);

enum { SERVICE, FILE_BYTES, REGISTERS, MEMORY, AREAS };
enum { ROOM = 1 << 16, STORES = 8, TRAP_FLAG = 0x100, ERROR_WRITE = 2 };

// The same bytes twice: as the library sees them, and as the handlers do.
static uint8_t *seen[AREAS], *own[AREAS];

static uint8_t stores[STORES];
static int store_count;
// Accesses of each area, by whether one store into the service byte had been made then and it held 1.
static long during[AREAS], outside[AREAS];
// The areas that the instruction under way may touch.
static int opened[AREAS];
static int stored;

static void allow(int area, int protection) {
    if (mprotect(seen[area], ROOM, protection) != 0) {
        _exit(2);
    }
}

static void on_touch(int signal_number, siginfo_t *info, void *context) {
    greg_t *registers = ((ucontext_t *)context)->uc_mcontext.gregs;
    for (int area = 0; area < AREAS; area++) {
        uintptr_t from = (uintptr_t)seen[area], at = (uintptr_t)info->si_addr;
        if (at < from || at >= from + ROOM) {
            continue;
        }
        if (area == SERVICE) {
            stored = stored || (registers[REG_ERR] & ERROR_WRITE) != 0;
        } else if (store_count == 1 && own[SERVICE][0] == 1) {
            during[area]++;
        } else {
            outside[area]++;
        }
        opened[area] = 1;
        allow(area, PROT_READ | PROT_WRITE);
        registers[REG_EFL] |= TRAP_FLAG;
        return;
    }
    // A fault of another kind ends the program.
    signal(signal_number, SIG_DFL);
}

static void after_touch(int signal_number, siginfo_t *info, void *context) {
    (void)signal_number, (void)info;
    ((ucontext_t *)context)->uc_mcontext.gregs[REG_EFL] &= ~(greg_t)TRAP_FLAG;
    if (stored && store_count < STORES) {
        stores[store_count++] = own[SERVICE][0];
    }
    stored = 0;
    for (int area = 0; area < AREAS; area++) {
        if (opened[area]) {
            opened[area] = 0;
            allow(area, PROT_NONE);
        }
    }
}

static void handle(int signal_number, void (*handler)(int, siginfo_t *, void *)) {
    struct sigaction action = {.sa_sigaction = handler, .sa_flags = SA_SIGINFO};
    sigemptyset(&action.sa_mask);
    sigaction(signal_number, &action, NULL);
}

int main(int count, char **words) {
    if (count != 4) {
        return 2;
    }
    int played = strcmp(words[2], "played") == 0;
    uint8_t former = (uint8_t)atoi(words[3]);

    int bytes = memfd_create("bytes", 0);
    if (bytes < 0 || ftruncate(bytes, AREAS * ROOM) != 0) {
        return 2;
    }
    for (int area = 0; area < AREAS; area++) {
        seen[area] = mmap(NULL, ROOM, PROT_NONE, MAP_SHARED, bytes, (off_t)area * ROOM);
        own[area] = mmap(NULL, ROOM, PROT_READ | PROT_WRITE, MAP_SHARED, bytes, (off_t)area * ROOM);
        if (seen[area] == MAP_FAILED || own[area] == MAP_FAILED) {
            return 2;
        }
    }
    FILE *file = fopen(words[1], "rb");
    if (file == NULL) {
        return 2;
    }
    size_t length = fread(own[FILE_BYTES], 1, ROOM, file);
    fclose(file);
    own[SERVICE][0] = former;

    handle(SIGSEGV, on_touch);
    handle(SIGTRAP, after_touch);
    size_t written = play_file(seen[FILE_BYTES], length, seen[REGISTERS], 301, seen[MEMORY], 4096, seen[SERVICE]);
    signal(SIGSEGV, SIG_DFL);

    printf("stored");
    for (int i = 0; i < store_count; i++) {
        printf(" %d", stores[i]);
    }
    printf("; touched while it held 1: file %ld, registers %ld, report %ld; else %ld", during[FILE_BYTES],
           during[REGISTERS], during[MEMORY], outside[FILE_BYTES] + outside[REGISTERS] + outside[MEMORY]);
    int right = store_count == 2 && stores[0] == 1 && stores[1] == former && own[SERVICE][0] == former;
    right = right && outside[FILE_BYTES] == 0 && outside[REGISTERS] == 0 && outside[MEMORY] == 0;
    right = right && (written > 0) == played && (during[REGISTERS] > 0) == played && (during[MEMORY] > 0) == played;
    right = right && (during[FILE_BYTES] > 0 || !played);
    return right ? 0 : 1;
}
