/* Lends static arrays, makes the files of the session in document 01 and prints what they hold. */
#include <filestore.h>
#include <stdio.h>

static uint8_t blocks[FILESTORE_BLOCKS(4)];
static uint8_t block_records[FILESTORE_BLOCK_RECORDS(4)];
static uint8_t file_records[FILESTORE_FILE_RECORDS(4)];
static uint8_t channel_records[FILESTORE_CHANNEL_RECORDS(2)];

/* Says what a call answered; its first number. */
static uint32_t said(const char *call, struct filestore_answer a)
{
    unsigned first = a.first, second = a.second, third = a.third;
    printf("%s: %s, %u %u %u\n", call, filestore_words(a.report), first, second, third);
    return a.first;
}

int main(void)
{
    const struct fstore s = FSTORE_LEND(blocks, block_records, file_records, channel_records);
    uint8_t bytes[9];
    said("prepare", fstore_prepare(&s));
    uint32_t x = said("create /x", fstore_create(&s, "/x"));
    said("write MONFRI", fstore_write(&s, x, "MONFRI", 6));
    said("seek to 8", fstore_seek(&s, x, FILESTORE_BYTES_FROM_START, 8));
    said("write SU", fstore_write(&s, x, "SU", 2));
    said("fstat", fstore_fstat(&s, x));
    said("seek to 5", fstore_seek(&s, x, FILESTORE_BYTES_FROM_START, 5));
    uint32_t count = said("read 9", fstore_read(&s, x, bytes, sizeof bytes));
    for (uint32_t i = 0; i < count; i++)
        printf("%02x%s", bytes[i], i + 1 < count ? " " : "\n");
    said("open /y", fstore_open(&s, "/y"));
    said("room", fstore_room(&s));
    return 0;
}
