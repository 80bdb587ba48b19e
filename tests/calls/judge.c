/* Judges the bench file that is named through the calls. Prints `accepted`, the ceiling and the store's length; or
 * `refused`, the refusal's number and its place. It stops where the answer has a number behind these that is not 0.
 */
#include <inttypes.h>
#include <stdio.h>
#include <string.h>

#include "nentuvar.h"

enum { ROOM = 4098 };

int main(int count, char **words)
{
    static uint8_t bytes[ROOM];
    uint64_t answer[NENTUVAR_ANSWER];
    memset(answer, 0xa5, sizeof answer);

    FILE *file = count == 2 ? fopen(words[1], "rb") : NULL;
    if (file == NULL) {
        printf("wrong: one file is named\n");
        return 1;
    }
    size_t length = fread(bytes, 1, ROOM, file);
    fclose(file);

    nentuvar_judge(bytes, length, answer);
    if (answer[0] > 1 || answer[3] != 0 || answer[4] != 0) {
        printf("wrong: a verdict has three numbers\n");
        return 1;
    }
    printf("%s %" PRIu64 " %" PRIu64 "\n", answer[0] == 1 ? "accepted" : "refused", answer[1], answer[2]);
    return 0;
}
