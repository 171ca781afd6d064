/* Rings in C to compare ring_bench with: ring free|turns|semaphores SIZE READERS BLOCKS. One writer fills 8 buffers from
   the blocks' numbers, and each reader, in a thread of its own, copies every block and compares every byte, as there.
   free: a count for each thread, on cache lines of its own, and blocks that all readers may copy at once.
   turns: readers take a block one after another, by a word for each buffer, and these words and the counts lie beside
   each other, as they do there.
   semaphores: two System V semaphores for each reader, filled and cleared, as PSRDADA's ipcbuf has them. */
#include <pthread.h>
#include <sched.h>
#include <stdatomic.h>
#include <stdint.h>
#include <stdio.h>
#include <stdlib.h>
#include <string.h>
#include <sys/ipc.h>
#include <sys/sem.h>
#include <time.h>

enum { BUFFERS = 8, MOST_READERS = 8, APART = 256, WRITER = 15 };

typedef struct { _Alignas(APART) atomic_ullong count; } Count;

static Count sealed, cleared[MOST_READERS];
/* of turns: 16 times the number of the block in each buffer plus 1, and who holds it; and the counts of the readers */
static _Alignas(64) atomic_ullong held[BUFFERS], passed[MOST_READERS];
static int turns;
static unsigned char *buffers[BUFFERS];
static size_t size;
static unsigned readers;
static uint64_t blocks;
static int semaphores = -1;

static unsigned char byte_of(uint64_t number) { return number % 251; }

static void move(unsigned short semaphore, short by) {
    struct sembuf step = {semaphore, by, 0};
    if (semop(semaphores, &step, 1) != 0) { perror("semop"); exit(1); }
}

static int takes(uint64_t number, uint64_t before, unsigned holder) {
    unsigned long long found = 16 * before;
    return atomic_compare_exchange_strong(&held[number % BUFFERS], &found, 16 * before + holder);
}

/* Waits until reader i no longer needs the buffer of this block. */
static void wait_for_room(uint64_t number, unsigned i) {
    if (semaphores >= 0) { move(2 * i + 1, -1); return; }
    atomic_ullong *count = turns ? &passed[i] : &cleared[i].count;
    while (atomic_load(count) + BUFFERS <= number) sched_yield();
}

static void wait_for_block(uint64_t number, unsigned i) {
    if (semaphores >= 0) { move(2 * i, -1); return; }
    if (turns) while (!takes(number, number + 1, i + 1)) sched_yield();
    else while (atomic_load(&sealed.count) <= number) sched_yield();
}

static void *write_all(void *unused) {
    (void)unused;
    unsigned char *space = malloc(size + APART);
    for (uint64_t number = 0; number < blocks; number++) {
        memset(space, byte_of(number), size);
        for (unsigned i = 0; i < readers; i++) wait_for_room(number, i);
        if (turns) takes(number, number < BUFFERS ? 0 : number - BUFFERS + 1, WRITER);
        memcpy(buffers[number % BUFFERS], space, size);
        if (semaphores >= 0) for (unsigned i = 0; i < readers; i++) move(2 * i, 1);
        else if (turns) atomic_store(&held[number % BUFFERS], 16 * (number + 1));
        else atomic_store(&sealed.count, number + 1);
    }
    return NULL;
}

static void *read_all(void *place) {
    unsigned i = (unsigned)(uintptr_t)place;
    unsigned char *into = malloc(size + APART);
    for (uint64_t number = 0; number < blocks; number++) {
        wait_for_block(number, i);
        memcpy(into, buffers[number % BUFFERS], size);
        if (turns) atomic_store(&held[number % BUFFERS], 16 * (number + 1));
        if (semaphores >= 0) move(2 * i + 1, 1);
        else if (turns) atomic_store(&passed[i], number + 1);
        else atomic_store(&cleared[i].count, number + 1);
        unsigned char byte = byte_of(number), wrong = 0;
        for (size_t k = 0; k < size; k++) wrong |= into[k] ^ byte;
        if (wrong) { fprintf(stderr, "wrong byte\n"); exit(1); }
    }
    return NULL;
}

int main(int count, char **words) {
    if (count != 5) return 2;
    size = strtoul(words[2], NULL, 10), readers = strtoul(words[3], NULL, 10), blocks = strtoull(words[4], NULL, 10);
    if (size == 0 || readers == 0 || readers > MOST_READERS || blocks == 0) return 2;
    turns = strcmp(words[1], "turns") == 0;
    if (strcmp(words[1], "semaphores") == 0) {
        semaphores = semget(IPC_PRIVATE, 2 * readers, 0600);
        if (semaphores < 0) { perror("semget"); return 1; }
        for (unsigned i = 0; i < readers; i++) move(2 * i + 1, BUFFERS);
    }
    for (int k = 0; k < BUFFERS; k++) buffers[k] = malloc(size + APART);
    struct timespec start, end;
    pthread_t writer, others[MOST_READERS];
    clock_gettime(CLOCK_MONOTONIC, &start);
    for (unsigned i = 0; i < readers; i++) pthread_create(&others[i], NULL, read_all, (void *)(uintptr_t)i);
    pthread_create(&writer, NULL, write_all, NULL);
    pthread_join(writer, NULL);
    for (unsigned i = 0; i < readers; i++) pthread_join(others[i], NULL);
    clock_gettime(CLOCK_MONOTONIC, &end);
    if (semaphores >= 0) semctl(semaphores, 0, IPC_RMID);
    double seconds = (end.tv_sec - start.tv_sec) + (end.tv_nsec - start.tv_nsec) * 1e-9;
    printf("size %zu, readers %u: %llu blocks to each in %.0f ms\n", size, readers, (unsigned long long)blocks, seconds * 1e3);
    printf("%.0f blocks and %.0f bytes in a second\n", blocks / seconds, blocks / seconds * size);
    return 0;
}
