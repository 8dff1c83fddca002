/* The jobs of pfc_bench's stored file as the system's calls, in plain C: gcc -O2 -o files files.c && ./files */
#define _GNU_SOURCE
#include <fcntl.h>
#include <stdint.h>
#include <stdio.h>
#include <stdlib.h>
#include <string.h>
#include <time.h>
#include <unistd.h>

enum { BLOCK = 1 << 20, BLOCKS = 4, SMALL = 4096, LARGE = 131072, CINFO = 128 };

static uint8_t bytes[BLOCKS][BLOCK];
static uint8_t place[LARGE];
static char data[4200], info[4200], temp[4200];

static double now(void) {
    struct timespec t;
    clock_gettime(CLOCK_MONOTONIC, &t);
    return t.tv_sec * 1e9 + t.tv_nsec;
}

static void need(int good, const char *what) {
    if (good) return;
    perror(what);
    exit(1);
}

static void line(const char *name, double spent, int rounds, uint64_t sum) {
    printf("%s: %.0f ns, sum %llu\n", name, spent / rounds, (unsigned long long)sum);
}

static void sync_folder(const char *folder) {
    int fd = open(folder, O_RDONLY | O_CLOEXEC);
    need(fd >= 0 && fsync(fd) == 0, "folder");
    close(fd);
}

/* What has to be done so that a crash keeps the block and the cinfo that claims it. */
static void turn(int fd, const char *folder) {
    need(fdatasync(fd) == 0, "fdatasync");
    int out = open(temp, O_WRONLY | O_CREAT | O_TRUNC | O_CLOEXEC, 0666);
    need(out >= 0 && write(out, place, CINFO) == CINFO && fsync(out) == 0, "temporary");
    close(out);
    need(rename(temp, info) == 0, "rename");
    sync_folder(folder);
}

/* Writes each block, with a turn after each. The file is open afterwards. */
static int write_all(const char *folder, double *write, double *turns) {
    int fd = -1;
    for (int i = 0; i < BLOCKS; i++) {
        double start = now();
        if (fd < 0) fd = open(data, O_RDWR | O_CREAT | O_CLOEXEC, 0666);
        need(fd >= 0 && pwrite(fd, bytes[i], BLOCK, (off_t)i * BLOCK) == BLOCK, "pwrite");
        *write += now() - start;
        start = now();
        turn(fd, folder);
        *turns += now() - start;
    }
    return fd;
}

static void discard(int fd, const char *folder) {
    need(unlink(info) == 0 && ftruncate(fd, 0) == 0 && fsync(fd) == 0 && unlink(data) == 0, "discard");
    close(fd);
    sync_folder(folder);
}

static void read_all(const char *name, int fd, int len, int rounds) {
    uint64_t sum = 0;
    double start = now();
    for (int i = 0; i < rounds; i++) {
        need(pread(fd, place, len, (off_t)i * len % ((off_t)BLOCKS * BLOCK)) == len, "pread");
        sum += place[0];
    }
    line(name, now() - start, rounds, sum);
}

int main(void) {
    const char *top = getenv("TMPDIR");
    char folder[4096];
    double write = 0, turns = 0;
    const int rounds = 16;
    snprintf(folder, sizeof folder, "%s/files_XXXXXX", top ? top : "/tmp");
    need(mkdtemp(folder) != NULL, "mkdtemp");
    snprintf(data, sizeof data, "%s/file", folder);
    snprintf(info, sizeof info, "%s/file.cinfo", folder);
    snprintf(temp, sizeof temp, "%s/file.cinfo.tmp", folder);
    for (int i = 0; i < BLOCKS; i++)
        for (int p = 0; p < BLOCK; p++) bytes[i][p] = (uint8_t)((i * BLOCK + p) % 251);
    for (int i = 0; i < rounds; i++) discard(write_all(folder, &write, &turns), folder);
    line("write a block", write, rounds * BLOCKS, rounds * BLOCKS);
    line("sync a block, put its cinfo", turns, rounds * BLOCKS, rounds * BLOCKS);
    int fd = write_all(folder, &write, &turns);
    read_all("read 4 KiB of a block", fd, SMALL, 400000);
    read_all("read 128 KiB of a block", fd, LARGE, 40000);
    discard(fd, folder);
    rmdir(folder);
    return 0;
}
