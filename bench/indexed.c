/* The indexed decision, written by hand in C over the same words and bytes that the proved call reads: something to compare its speed with.
 *
 * It answers what qd_decide_indexed answers, for every input, and so tests what that tests: that the memory holds a table, the index's length, the
 * lines of a request. docs/DESIGN.md says where everything stands, docs/CONTRACTS.md which memory holds a table.
 */
#include <stdbool.h>
#include <stddef.h>
#include <stdint.h>
#include <string.h>

enum { WORDS = 8192, BYTES = 32768, MARK = 0x51445231 };
enum { MOST_ASSIGNMENTS = 2000, MOST_ASSOCIATIONS = 1000, MOST_PROHIBITIONS = 200 };
enum { KINDS = 8, USERS = 520, ASSIGNMENTS = 776, ASSOCIATIONS = 2776, PROHIBITIONS = 5776, PROHIBITION = 11 };
enum { CLASS = 5, ROW = 64 };

static bool rising(const uint32_t *words, size_t n)
{
    uint32_t down = 0;
    for (size_t i = 1; i < n; i++)
        down |= words[i - 1] >= words[i];
    return n == 0 || (!down && words[n - 1] < 512 * 512);
}

static bool short_lists(const uint32_t *records, size_t n)
{
    uint32_t long_ones = 0;
    for (size_t i = 0; i < n; i++) {
        uint32_t counts = records[PROHIBITION * i + 2];
        long_ones |= (counts / 8 > 4) | (counts % 8 > 4);
    }
    return !long_ones;
}

static bool holds_table(const uint32_t *table, size_t words)
{
    if (words != WORDS || table[0] != MARK)
        return false;
    if (table[1] > MOST_ASSIGNMENTS || table[2] > MOST_ASSOCIATIONS || table[3] > MOST_PROHIBITIONS)
        return false;
    if (!rising(table + ASSIGNMENTS, table[1]))
        return false;
    return short_lists(table + PROHIBITIONS, table[3]);
}

static uint32_t kind_of(const uint32_t *table, uint32_t x)
{
    uint32_t kind = table[KINDS + x];
    return kind > CLASS ? 0 : kind;
}

/* The bit of x and y; none where y, as memory that no call leaves may name it, is past the bytes. */
static bool bit(const uint8_t *index, uint32_t x, uint32_t y)
{
    size_t place = (size_t)ROW * x + y / 8;
    return place < BYTES && (index[place] >> (7 - y % 8) & 1);
}

/* The kinds that an argument may be of, as a set, 0 where there is no such argument; and the rights that an alternative asks over each. */
static const uint8_t kinds[10][3] = {
    {0}, {8}, {8}, {8}, {8}, {8, 16, 16}, {8, 16}, {30, 30}, {30, 30}, {4, 28},
};
static const uint16_t rights[10][2][3] = {
    {{0}},
    {{1 << 0}},
    {{1 << 1}},
    {{1 << 2}, {1 << 0}},
    {{1 << 0 | 1 << 3}},
    {{1 << 4, 1 << 5, 1 << 6}, {1 << 1, 1 << 5, 1 << 6}},
    {{1 << 0, 1 << 6}, {1 << 3, 1 << 1}},
    {{1 << 7, 1 << 8}},
    {{1 << 9, 1 << 10}},
    {{1 << 11, 1 << 12}},
};

struct asking {
    const uint32_t *table;
    const uint8_t *index;
    uint32_t process, user;
};

/* The classes of an element. */
struct classes {
    uint32_t count;
    uint16_t ids[512];
};

static void find_classes(const struct asking *q, uint32_t e, struct classes *found)
{
    const uint8_t *row = q->index + ROW * e;
    found->count = 0;
    for (uint32_t k = 0; k < ROW; k += 8) {
        uint64_t eight;
        memcpy(&eight, row + k, 8);
        if (eight == 0)
            continue;
        for (uint32_t y = 8 * k; y < 8 * k + 64; y++)
            if (q->table[KINDS + y] == CLASS && y > 0 && bit(row, 0, y))
                found->ids[found->count++] = y;
    }
}

static bool holds_right(const struct asking *q, uint32_t e, uint32_t right, const struct classes *classes)
{
    const uint32_t *association = q->table + ASSOCIATIONS, *end = association + 2 * q->table[2];
    uint64_t given[ROW / 8] = {0}, target[ROW / 8];
    for (uint32_t i = 0; i < classes->count; i++) {
        while (!bit((const uint8_t *)given, 0, classes->ids[i])) {
            if (association == end)
                return false;
            if (association[1] >> right & 1 && bit(q->index, q->user, association[0] / 512) && bit(q->index, e, association[0] % 512)) {
                memcpy(target, q->index + ROW * (association[0] % 512), ROW);
                for (int k = 0; k < ROW / 8; k++)
                    given[k] |= target[k];
            }
            association += 2;
        }
    }
    return classes->count > 0;
}

static bool concerns(const struct asking *q, const uint32_t *record)
{
    uint32_t subject = record[0] / 2 % 512;
    switch (record[0] / 1024) {
    case 1:
        return subject == q->user;
    case 2:
        return subject == q->process;
    case 3:
        return bit(q->index, q->user, subject);
    default:
        return false;
    }
}

/* An argument is no class, which would be in no range. */
static bool in_range(const struct asking *q, const uint32_t *record, uint32_t e)
{
    uint32_t inclusions = record[2] / 8, listed = inclusions + record[2] % 8;
    bool conjunctive = record[0] % 2;
    for (uint32_t k = 0; k < listed; k++) {
        bool fits = bit(q->index, e, record[3 + k]) == (k < inclusions);
        if (fits != conjunctive)
            return fits;
    }
    return conjunctive;
}

static bool restricted(const struct asking *q, uint32_t e, uint32_t right)
{
    const uint32_t *record = q->table + PROHIBITIONS, *end = record + PROHIBITION * q->table[3];
    for (; record < end; record += PROHIBITION)
        if (record[1] >> right & 1 && concerns(q, record) && in_range(q, record, e))
            return true;
    return false;
}

static bool satisfied(const struct asking *q, const uint32_t *arguments, const uint16_t *sets, const struct classes *classes)
{
    for (int k = 0; k < 3; k++)
        for (uint32_t left = sets[k]; left; left &= left - 1) {
            uint32_t right = __builtin_ctz(left);
            if (!holds_right(q, arguments[k], right, &classes[k]) || restricted(q, arguments[k], right))
                return false;
        }
    return true;
}

uint32_t c_decide_indexed(const uint32_t *table, size_t words, const uint8_t *index, size_t bytes, uint32_t process, uint32_t operation,
                          uint32_t a, uint32_t b, uint32_t c)
{
    const uint32_t arguments[3] = {a, b, c};
    if (!holds_table(table, words))
        return 16 + 1;
    if (bytes != BYTES || process < 1 || process > 255 || operation < 1 || operation > 9)
        return 16 + 2;
    for (int k = 0; k < 3; k++)
        if (kinds[operation][k] ? arguments[k] < 1 || arguments[k] > 511 : arguments[k] != 0)
            return 16 + 2;
    struct asking q = {table, index, process, table[USERS + process]};
    if (q.user < 1 || q.user > 511)
        return 16 + 4;
    for (int k = 0; k < 3; k++)
        if (kinds[operation][k] && kind_of(table, arguments[k]) == 0)
            return 16 + 4;
    for (int k = 0; k < 3; k++)
        if (kinds[operation][k] && !(kinds[operation][k] >> kind_of(table, arguments[k]) & 1))
            return 16 + 5;
    struct classes classes[3];
    for (int k = 0; k < 3; k++)
        if (kinds[operation][k])
            find_classes(&q, arguments[k], &classes[k]);
    for (uint32_t k = 0; k < 2 && rights[operation][k][0]; k++)
        if (satisfied(&q, arguments, rights[operation][k], classes))
            return k + 1;
    return 0;
}
