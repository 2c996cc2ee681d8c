/* Loads the small house, asks K1 to K3 and prints why. README.md says how to build it. */
#include <quandrilof.h>
#include <stdio.h>

static uint32_t table[QD_TABLE_WORDS];
static uint8_t image[QD_IMAGE_MOST + 1]; /* a longer file is refused, not cut */
static struct qd_row rows[QD_ROWS_MOST];

static void ask(const char *name, uint32_t process, uint32_t object)
{
    uint64_t told = qd_explain(table, QD_TABLE_WORDS, process, QD_READ, object, 0, 0, rows, QD_ROWS_MOST);
    uint32_t answer = told >> 32, count = (uint32_t)told;
    int granted = answer == 1 || answer == 2;
    printf("%s: process %u reads %u: ", name, process, object);
    if (answer > QD_REFUSED)
        printf("refused with %u\n", answer - QD_REFUSED);
    else
        puts(granted ? "granted" : "denied");
    for (const struct qd_row *row = rows; row < rows + count; row++)
        if (granted)
            printf("  right %u in class %u, by the association of %u with %u\n", row->right, row->number, row->attribute, row->target);
        else if (row->cause == 1)
            printf("  right %u of argument %u is not held: class %u lacks it\n", row->right, row->argument, row->number); /* class 0: the element is in none */
        else
            printf("  right %u of argument %u is restricted, through %u\n", row->right, row->argument, row->number);
}

int main(int count, char **words)
{
    FILE *file = count == 2 ? fopen(words[1], "rb") : NULL;
    size_t length = file == NULL ? 0 : fread(image, 1, sizeof image, file);
    uint32_t refusal = qd_load(table, QD_TABLE_WORDS, image, length);
    if (file == NULL || refusal != 0) {
        file == NULL ? puts("no image file") : printf("refused with %u\n", refusal);
        return 1;
    }
    ask("K1", 1, 9);
    ask("K2", 1, 10);
    ask("K3", 2, 10);
}
