/* Marks the bench file that is named: judges and runs it, and prints the result lines. They are `done`, `exit` or `reject`
 * and its error, steps and ceiling, then on a second line the store's numbers; or `refused`, the refusal's number and its
 * place.
 *
 *   (cd crates/calls && rt lib)
 *   cc -I include -o mark examples/mark.c crates/calls/out/libcalls.a
 *   ./mark FILE
 */
#include <inttypes.h>
#include <stdio.h>

#include "nentuvar.h"

/* One byte more than a bench file may have: of a longer file no more is needed to refuse it. */
enum { ROOM = 4097 };

/* The first bytes of a file, and how many they are; or -1 if it cannot be read. */
static long first_bytes(const char *name, uint8_t bytes[ROOM])
{
    FILE *file = fopen(name, "rb");
    if (file == NULL)
        return -1;
    size_t length = fread(bytes, 1, ROOM, file);
    int failed = ferror(file);
    fclose(file);
    return failed ? -1 : (long)length;
}

/* The second line: numbers with one blank between two. */
static void print_store(const uint64_t *store, uint64_t length)
{
    for (uint64_t i = 0; i < length; i++)
        printf("%s%" PRIu64, i == 0 ? "" : " ", store[i]);
    printf("\n");
}

/* The result lines of an answer, with the store that the run left. */
static void print_lines(const uint64_t answer[NENTUVAR_ANSWER], const uint64_t *store)
{
    switch (answer[0]) {
    case 0:
        printf("refused %" PRIu64 " %" PRIu64 "\n", answer[1], answer[2]);
        break;
    case 4:
        printf("reject %" PRIu64 " %" PRIu64 " %" PRIu64 "\n", answer[1], answer[2], answer[3]);
        print_store(store, answer[4]);
        break;
    default:
        printf("%s %" PRIu64 " %" PRIu64 "\n", answer[0] == 1 ? "done" : "exit", answer[1], answer[2]);
        print_store(store, answer[3]);
    }
}

int main(int count, char **words)
{
    if (count != 2) {
        fprintf(stderr, "usage: mark FILE\n");
        return 2;
    }
    uint8_t bytes[ROOM];
    long length = first_bytes(words[1], bytes);
    if (length < 0) {
        perror(words[1]);
        return 2;
    }
    static uint64_t store[NENTUVAR_STORE], working[NENTUVAR_WORKING];
    uint64_t answer[NENTUVAR_ANSWER];
    nentuvar_run(bytes, (size_t)length, store, NENTUVAR_STORE, working, NENTUVAR_WORKING, answer);
    print_lines(answer, store);
    return 0;
}
