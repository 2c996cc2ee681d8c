/* Changes a policy: loads the small house, lets user 6 read object 511, asks from the index, and saves. README.md says how to build it. */
#include <quandrilof.h>
#include <stdio.h>

static uint32_t table[QD_TABLE_WORDS];
static uint8_t index_[QD_INDEX_BYTES], image[QD_IMAGE_MOST + 1]; /* a longer file is refused, not cut */

/* Process 2 is user 6's. */
static void ask(void)
{
    uint32_t answer = qd_decide_indexed(table, QD_TABLE_WORDS, index_, QD_INDEX_BYTES, 2, QD_READ, 511, 0, 0);
    int granted = answer == 1 || answer == 2;
    printf("process 2 reads 511: %s\n", granted ? "granted" : answer > QD_REFUSED ? "refused" : "denied");
}

int main(int count, char **words)
{
    FILE *file = count == 2 ? fopen(words[1], "rb") : NULL;
    if (file == NULL) {
        puts("no image file");
        return 1;
    }
    size_t length = fread(image, 1, sizeof image, file);
    uint32_t refusal = qd_load(table, QD_TABLE_WORDS, image, length);
    if (refusal == 0)
        refusal = qd_build_index(table, QD_TABLE_WORDS, index_, QD_INDEX_BYTES);
    if (refusal) {
        printf("refused with %u\n", refusal);
        return 1;
    }
    ask();
    refusal = qd_assign(table, QD_TABLE_WORDS, index_, QD_INDEX_BYTES, 6, 4);
    printf("assign 6 to 4: %u\n", refusal);
    ask();
    refusal = qd_deassign(table, QD_TABLE_WORDS, index_, QD_INDEX_BYTES, 9, 7);
    printf("deassign 9 from 7: %u\n", refusal);
    uint64_t saved = qd_save(table, QD_TABLE_WORDS, image, sizeof image);
    if (saved >> 32) {
        printf("refused with %u\n", (uint32_t)(saved >> 32));
        return 1;
    }
    printf("saved: %u bytes\n", (uint32_t)saved);
    return 0;
}
