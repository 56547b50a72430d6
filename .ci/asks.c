// Asks for memory once in each way that refuse.c is to see, and says of each whether it was given any.
#define _GNU_SOURCE
#include <malloc.h>
#include <stdlib.h>
#include <string.h>
#include <unistd.h>

#define SIZE 100
#define ALIGNMENT 64

// By no call that formats, since such a call can ask for memory itself.
static void tell(const char *name, void *block) {
    const char *answer = block ? " given\n" : " refused\n";
    if (write(STDOUT_FILENO, name, strlen(name)) < 0 || write(STDOUT_FILENO, answer, strlen(answer)) < 0)
        abort();
    free(block);
}

int main(void) {
    void *block = NULL;
    tell("malloc", malloc(SIZE));
    tell("calloc", calloc(1, SIZE));
    tell("realloc", realloc(NULL, SIZE));
    tell("posix_memalign", posix_memalign(&block, ALIGNMENT, SIZE) ? NULL : block);
    tell("aligned_alloc", aligned_alloc(ALIGNMENT, ALIGNMENT));
    tell("memalign", memalign(ALIGNMENT, SIZE));
    return 0;
}
