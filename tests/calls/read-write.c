/* Reads the bench file that is named through the calls and writes its numbers again. Prints `same` where the bytes come
 * back, or `refused` with number and place where they do not read. It stops where a call answers or leaves anything else
 * than the header says: the numbers of an answer, what lies behind the numbers and bytes, and all of it where one slot or
 * byte is missing.
 */
#include <inttypes.h>
#include <stdio.h>
#include <stdlib.h>
#include <string.h>

#include "nentuvar.h"

enum { ROOM = 4098 };

static void expect(int holds, const char *what)
{
    if (!holds) {
        printf("wrong: %s\n", what);
        exit(1);
    }
}

static int says(const uint64_t answer[NENTUVAR_ANSWER], uint64_t first, uint64_t second)
{
    return answer[0] == first && answer[1] == second && answer[2] == 0 && answer[3] == 0 && answer[4] == 0;
}

static int all_as_found(const void *area, size_t size)
{
    const unsigned char *bytes = area;
    while (size > 0 && bytes[size - 1] == 0xa5)
        size--;
    return size == 0;
}

int main(int count, char **words)
{
    static uint8_t bytes[ROOM], again[ROOM];
    static uint64_t slots[ROOM];
    uint64_t answer[NENTUVAR_ANSWER];
    memset(answer, 0xa5, sizeof answer);
    memset(slots, 0xa5, sizeof slots);
    memset(again, 0xa5, sizeof again);

    FILE *file = count == 2 ? fopen(words[1], "rb") : NULL;
    expect(file != NULL, "one file is named");
    size_t length = fread(bytes, 1, ROOM, file);
    fclose(file);

    nentuvar_read(bytes, length, slots, ROOM, answer);
    if (answer[0] == 0) {
        expect(all_as_found(slots, sizeof slots), "a refused read leaves the slots");
        expect(answer[3] == 0 && answer[4] == 0, "a refusal has three numbers");
        printf("refused %" PRIu64 " %" PRIu64 "\n", answer[1], answer[2]);
        return 0;
    }
    size_t numbers = answer[1];
    expect(says(answer, 1, numbers) && 0 < numbers && numbers <= length, "read answers a count");
    expect(all_as_found(slots + numbers, sizeof slots - numbers * sizeof *slots), "read leaves the slots behind");

    nentuvar_write(slots, numbers, again, length - 1, answer);
    expect(says(answer, 0, 13) && all_as_found(again, sizeof again), "write with a byte too few changes nothing");
    nentuvar_write(slots, numbers, again, ROOM, answer);
    expect(says(answer, 1, length) && memcmp(bytes, again, length) == 0, "write gives the bytes back");
    expect(all_as_found(again + length, sizeof again - length), "write leaves the bytes behind");

    memset(slots, 0xa5, sizeof slots);
    nentuvar_read(bytes, length, slots, numbers - 1, answer);
    expect(says(answer, 0, 13) && all_as_found(slots, sizeof slots), "read with a slot too few changes nothing");
    printf("same\n");
    return 0;
}
