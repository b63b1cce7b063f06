/* bare FILE TIMES: the microseconds of wl_verdict on a file that is mapped and was judged once before, and of opening, mapping and judging it anew: the
 * least of so many. */
#include <fcntl.h>
#include <stdint.h>
#include <stdio.h>
#include <stdlib.h>
#include <sys/mman.h>
#include <sys/stat.h>
#include <time.h>
#include <unistd.h>

void wl_verdict(const uint8_t *bytes, size_t len, uint64_t answer[4]);

static double now(void)
{
    struct timespec t;
    clock_gettime(CLOCK_MONOTONIC, &t);
    return t.tv_sec * 1e6 + t.tv_nsec / 1e3;
}

static const uint8_t *mapped(const char *name, size_t *len)
{
    struct stat about;
    int file = open(name, O_RDONLY);
    if (file < 0 || fstat(file, &about) != 0)
        perror(name), exit(2);
    *len = about.st_size;
    void *bytes = mmap(NULL, *len, PROT_READ, MAP_SHARED, file, 0);
    if (bytes == MAP_FAILED)
        perror(name), exit(2);
    close(file);
    return bytes;
}

static void judge(const uint8_t *bytes, size_t len)
{
    uint64_t answer[4];
    wl_verdict(bytes, len, answer);
    if (answer[0] != 0)
        exit(1);
}

int main(int count, char **words)
{
    size_t len, times = count == 3 ? strtoul(words[2], NULL, 10) : 0;
    if (times == 0)
        return fprintf(stderr, "usage: bare FILE TIMES\n"), 2;
    double kept = 1e12, anew = 1e12;
    const uint8_t *bytes = mapped(words[1], &len);
    judge(bytes, len);
    for (size_t k = 0; k < times; k++) {
        double start = now();
        judge(bytes, len);
        double took = now() - start;
        kept = took < kept ? took : kept;
    }
    for (size_t k = 0; k < times; k++) {
        double start = now();
        const uint8_t *other = mapped(words[1], &len);
        judge(other, len);
        munmap((void *)other, len);
        double took = now() - start;
        anew = took < anew ? took : anew;
    }
    printf("%.1f %.1f\n", kept, anew);
    return 0;
}
