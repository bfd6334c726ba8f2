/*
 * Random calls on tables, names, data and buffers that each lie in memory of
 * just their length, so that valgrind sees any byte touched outside them. Every
 * other row damages its tables as it goes.
 *
 *     random SEED ROWS
 */
#include <filestore.h>
#include <stdio.h>
#include <stdlib.h>

static uint64_t state;

/* SplitMix64; a number below bound. */
static uint32_t below(uint32_t bound)
{
    uint64_t z = (state += 0x9e3779b97f4a7c15u);
    z = (z ^ (z >> 30)) * 0xbf58476d1ce4e5b9u;
    z = (z ^ (z >> 27)) * 0x94d049bb133111ebu;
    return (uint32_t)((z ^ (z >> 31)) % bound);
}

/* Memory of just that length; none for 0. */
static uint8_t *bytes(size_t length, uint8_t fill)
{
    uint8_t *p = length ? malloc(length) : NULL;
    if (length && !p)
        abort();
    if (p)
        memset(p, fill, length);
    return p;
}

static uint8_t *copied(const void *from, size_t length)
{
    uint8_t *p = bytes(length, 0);
    if (p)
        memcpy(p, from, length);
    return p;
}

static const char *const names[] = {
    "/", "/a", "/b", "/d", "/d/a", "/d/b", "/d/e", "/d/e/a", "/d/e/f", "/d/e/f/g/h/i/j/k",
    "", "a", "//", "/a/", "/abcdefghijklmn", "/abcdefghijklmno", "/1/2/3/4/5/6/7/8/9"};

/* A name, the likely ones more often. */
static const char *name(void)
{
    return names[below(below(8) ? 9 : sizeof(names) / sizeof(names[0]))];
}

static struct filestore_answer random_call(const struct fstore *s)
{
    const char *one = name(), *two = name();
    size_t one_length = strlen(one), two_length = strlen(two);
    size_t lent_length = below(4) ? below(60) : below(2000);
    uint8_t *a = copied(one, one_length), *b = copied(two, two_length);
    uint8_t *lent = bytes(lent_length, 7);
    uint32_t channel = below(12) ? below(3) : below(20);
    struct filestore_answer answer;
    switch (below(20)) {
    case 0: case 1: case 2:
        answer = filestore_create(FSTORE_LENT(s), a, one_length);
        break;
    case 3:
        answer = filestore_open(FSTORE_LENT(s), a, one_length);
        break;
    case 4:
        answer = fstore_close(s, channel);
        break;
    case 5: case 6:
        answer = fstore_read(s, channel, lent, lent_length);
        break;
    case 7: case 8: case 9:
        answer = fstore_write(s, channel, lent, lent_length);
        break;
    case 10:
        answer = fstore_seek(s, channel, below(7), below(3) ? below(2000) : below(40000));
        break;
    case 11:
        answer = fstore_fstat(s, channel);
        break;
    case 12:
        answer = filestore_link(FSTORE_LENT(s), a, one_length, b, two_length);
        break;
    case 13:
        answer = filestore_unlink(FSTORE_LENT(s), a, one_length);
        break;
    case 14:
        answer = filestore_move(FSTORE_LENT(s), a, one_length, b, two_length);
        break;
    case 15:
        answer = filestore_ls(FSTORE_LENT(s), a, one_length, lent, lent_length);
        break;
    case 16: case 17:
        answer = filestore_mkdir(FSTORE_LENT(s), a, one_length);
        break;
    case 18:
        answer = filestore_rmdir(FSTORE_LENT(s), a, one_length);
        break;
    default:
        answer = fstore_room(s);
    }
    free(a);
    free(b);
    free(lent);
    return answer;
}

/* Changes a byte of a table that has any. */
static void damage(uint8_t *table, size_t length)
{
    if (length)
        table[below((uint32_t)length)] = (uint8_t)(below(2) ? below(4) : below(256));
}

/* A row of calls, whose tables may be damaged on the way. */
static void row(unsigned long *reports, int damaged)
{
    int large = !below(16);
    size_t blocks = 1 + below(large ? FILESTORE_MOST_BLOCKS : 6);
    size_t files = 1 + below(large ? FILESTORE_MOST_FILES : 8);
    size_t channels = 1 + below(large ? FILESTORE_MOST_CHANNELS : 3);
    int calls = 60;
    struct fstore s;
    s.blocks_length = FILESTORE_BLOCKS(blocks);
    s.block_records_length = FILESTORE_BLOCK_RECORDS(blocks);
    s.file_records_length = FILESTORE_FILE_RECORDS(files);
    s.channel_records_length = FILESTORE_CHANNEL_RECORDS(channels);
    /* now and then a length that is wrong */
    if (damaged && !below(4)) {
        size_t *lengths[] = {&s.blocks_length, &s.block_records_length, &s.file_records_length,
                             &s.channel_records_length};
        *lengths[below(4)] -= 1 + below(4);
    }
    s.blocks = bytes(s.blocks_length, 9);
    s.block_records = bytes(s.block_records_length, 9);
    s.file_records = bytes(s.file_records_length, 9);
    s.channel_records = bytes(s.channel_records_length, 9);
    reports[fstore_prepare(&s).report]++;
    while (calls--) {
        if (damaged && calls < 30 && !below(3))
            switch (below(4)) {
            case 0:
                damage(s.blocks, s.blocks_length);
                break;
            case 1:
                damage(s.block_records, s.block_records_length);
                break;
            case 2:
                damage(s.file_records, s.file_records_length);
                break;
            default:
                damage(s.channel_records, s.channel_records_length);
            }
        reports[random_call(&s).report]++;
    }
    free(s.blocks);
    free(s.block_records);
    free(s.file_records);
    free(s.channel_records);
}

int main(int count, char **words)
{
    unsigned long reports[16] = {0}, seed, rows, i;
    if (count != 3)
        return 2;
    seed = strtoul(words[1], NULL, 10);
    rows = strtoul(words[2], NULL, 10);
    for (i = 0; i < rows; i++) {
        state = seed + i;
        row(reports, i % 2);
    }
    printf("seeds %lu to %lu, %lu calls:", seed, seed + rows - 1, 61 * rows);
    for (i = 0; i < 16; i++)
        printf(" %lu", reports[i]);
    printf("\n");
    return 0;
}
