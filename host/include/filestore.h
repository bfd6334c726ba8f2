/*
 * The file store for C and C++: fifteen calls over four tables that the host lends.
 *
 * Link with target/staticlib/libfilestore.a (`host/library`). A call
 * keeps nothing, allocates nothing and uses no memory but its stack and what it
 * is lent. Tables may hold any bytes: a call tests that they are a sound store
 * before anything else. Lent tables, names, data and buffers must not overlap,
 * unless the call takes both as const. A length of 0 may come with any pointer.
 */
#ifndef FILESTORE_H
#define FILESTORE_H

#include <stddef.h>
#include <stdint.h>
#include <string.h>

#ifdef __cplusplus
extern "C" {
#endif

/* The most of each that a store may have; the least is 1. */
#define FILESTORE_MOST_BLOCKS 128
#define FILESTORE_MOST_FILES 64
#define FILESTORE_MOST_CHANNELS 16

/* Bytes of each table, for so many blocks, files and channels. */
#define FILESTORE_BLOCKS(blocks) (512 * (size_t)(blocks))
#define FILESTORE_BLOCK_RECORDS(blocks) (4 * (size_t)(blocks))
#define FILESTORE_FILE_RECORDS(files) (8 * (size_t)(files))
#define FILESTORE_CHANNEL_RECORDS(channels) (8 * (size_t)(channels))

/* Bytes of a name that ls lists, zeros after it; bytes that list so many. */
#define FILESTORE_LISTED_NAME 14
#define FILESTORE_LISTING(names) (FILESTORE_LISTED_NAME * (size_t)(names))

/* Bytes of the longest file or directory, and the highest position. */
#define FILESTORE_LONGEST 32768
#define FILESTORE_FARTHEST 16777215

enum filestore_report {
    FILESTORE_OK = 0,            /* done */
    FILESTORE_NOT_A_STORE = 1,   /* tables are not a sound store; prepare: wrong table lengths */
    FILESTORE_BAD_NAME = 2,      /* name badly written, or 8 syllables given to mkdir */
    FILESTORE_NO_SUCH_CID = 3,   /* channel number out of range or free */
    FILESTORE_NO_SUCH_NAME = 4,  /* name missing; for a new name, its directory missing */
    FILESTORE_NO_FREE_CIDS = 5,  /* no free channel */
    FILESTORE_IS_DIRECTORY = 6,  /* the call takes ordinary files only */
    FILESTORE_NOT_DIRECTORY = 7, /* the call takes directories only */
    FILESTORE_NO_FREE_FIDS = 8,  /* no free file number */
    FILESTORE_NO_ROOM = 9,       /* more new blocks needed than are free */
    FILESTORE_TOO_BIG = 10,      /* a file or directory would pass 32,768 bytes */
    FILESTORE_BAD_SEEK = 11,     /* mode above 5, or position above 16,777,215 */
    FILESTORE_NAME_IN_USE = 12,  /* mkdir of an existing name */
    FILESTORE_NOT_EMPTY = 13,    /* directory has names */
    FILESTORE_OUT_SHORT = 14,    /* listing buffer too small */
    FILESTORE_IN_USE = 15        /* rmdir of the root, or of a directory with a channel */
};

/* Where seek counts from: n bytes, or n blocks of 512. */
enum filestore_mode {
    FILESTORE_BYTES_FROM_START = 0,
    FILESTORE_BYTES_FROM_POSITION = 1,
    FILESTORE_BYTES_FROM_END = 2,
    FILESTORE_BLOCKS_FROM_START = 3,
    FILESTORE_BLOCKS_FROM_POSITION = 4,
    FILESTORE_BLOCKS_FROM_END = 5
};

/* The kinds of files that fstat tells. */
enum filestore_kind { FILESTORE_ORDINARY = 1, FILESTORE_DIRECTORY = 2 };

/* A report and up to three numbers; those that a call does not answer are 0, and all of a refusal's. */
struct filestore_answer {
    uint32_t report;
    uint32_t first;
    uint32_t second;
    uint32_t third;
};

/*
 * The calls. Tables that a call leaves alone are const. A name is bytes and a
 * length, with no zero at its end.
 */

/* Makes an empty store of any tables of right lengths; block bytes stay. */
struct filestore_answer filestore_prepare(
    const uint8_t *blocks, size_t blocks_length,
    uint8_t *block_records, size_t block_records_length,
    uint8_t *file_records, size_t file_records_length,
    uint8_t *channel_records, size_t channel_records_length);

/* Empties the named file or makes a new one, and opens it. first: channel. */
struct filestore_answer filestore_create(
    uint8_t *blocks, size_t blocks_length,
    uint8_t *block_records, size_t block_records_length,
    uint8_t *file_records, size_t file_records_length,
    uint8_t *channel_records, size_t channel_records_length,
    const uint8_t *name, size_t name_length);

/* Opens a file or directory at position 0. first: channel. */
struct filestore_answer filestore_open(
    const uint8_t *blocks, size_t blocks_length,
    const uint8_t *block_records, size_t block_records_length,
    const uint8_t *file_records, size_t file_records_length,
    uint8_t *channel_records, size_t channel_records_length,
    const uint8_t *name, size_t name_length);

/* Closes a channel; an ordinary file with neither name nor channel left is freed. */
struct filestore_answer filestore_close(
    const uint8_t *blocks, size_t blocks_length,
    uint8_t *block_records, size_t block_records_length,
    uint8_t *file_records, size_t file_records_length,
    uint8_t *channel_records, size_t channel_records_length,
    uint32_t channel);

/* Reads from the position on, as far as file and buffer go. first: bytes read. */
struct filestore_answer filestore_read(
    const uint8_t *blocks, size_t blocks_length,
    const uint8_t *block_records, size_t block_records_length,
    const uint8_t *file_records, size_t file_records_length,
    uint8_t *channel_records, size_t channel_records_length,
    uint32_t channel,
    uint8_t *buffer, size_t buffer_length);

/* Writes at the position, after zeros in any gap. first: bytes written. */
struct filestore_answer filestore_write(
    uint8_t *blocks, size_t blocks_length,
    uint8_t *block_records, size_t block_records_length,
    uint8_t *file_records, size_t file_records_length,
    uint8_t *channel_records, size_t channel_records_length,
    uint32_t channel,
    const uint8_t *data, size_t data_length);

/* Moves the position. first: the new one. */
struct filestore_answer filestore_seek(
    const uint8_t *blocks, size_t blocks_length,
    const uint8_t *block_records, size_t block_records_length,
    const uint8_t *file_records, size_t file_records_length,
    uint8_t *channel_records, size_t channel_records_length,
    uint32_t channel,
    uint32_t mode,
    uint32_t n);

/* Tells of a channel's file. first: length; second: file number; third: kind. */
struct filestore_answer filestore_fstat(
    const uint8_t *blocks, size_t blocks_length,
    const uint8_t *block_records, size_t block_records_length,
    const uint8_t *file_records, size_t file_records_length,
    const uint8_t *channel_records, size_t channel_records_length,
    uint32_t channel);

/* Makes the new name stand for the old name's file. */
struct filestore_answer filestore_link(
    uint8_t *blocks, size_t blocks_length,
    uint8_t *block_records, size_t block_records_length,
    uint8_t *file_records, size_t file_records_length,
    const uint8_t *channel_records, size_t channel_records_length,
    const uint8_t *old_name, size_t old_name_length,
    const uint8_t *new_name, size_t new_name_length);

/* Takes a file's name away. */
struct filestore_answer filestore_unlink(
    uint8_t *blocks, size_t blocks_length,
    uint8_t *block_records, size_t block_records_length,
    uint8_t *file_records, size_t file_records_length,
    const uint8_t *channel_records, size_t channel_records_length,
    const uint8_t *name, size_t name_length);

/* Links the new name, then unlinks the old one. */
struct filestore_answer filestore_move(
    uint8_t *blocks, size_t blocks_length,
    uint8_t *block_records, size_t block_records_length,
    uint8_t *file_records, size_t file_records_length,
    const uint8_t *channel_records, size_t channel_records_length,
    const uint8_t *old_name, size_t old_name_length,
    const uint8_t *new_name, size_t new_name_length);

/* Lists a directory's names, 14 bytes each. first: how many. */
struct filestore_answer filestore_ls(
    const uint8_t *blocks, size_t blocks_length,
    const uint8_t *block_records, size_t block_records_length,
    const uint8_t *file_records, size_t file_records_length,
    const uint8_t *channel_records, size_t channel_records_length,
    const uint8_t *name, size_t name_length,
    uint8_t *buffer, size_t buffer_length);

/* Makes an empty directory. */
struct filestore_answer filestore_mkdir(
    uint8_t *blocks, size_t blocks_length,
    uint8_t *block_records, size_t block_records_length,
    uint8_t *file_records, size_t file_records_length,
    const uint8_t *channel_records, size_t channel_records_length,
    const uint8_t *name, size_t name_length);

/* Removes an empty directory that no channel holds. */
struct filestore_answer filestore_rmdir(
    uint8_t *blocks, size_t blocks_length,
    uint8_t *block_records, size_t block_records_length,
    uint8_t *file_records, size_t file_records_length,
    const uint8_t *channel_records, size_t channel_records_length,
    const uint8_t *name, size_t name_length);

/* first: free blocks; second: free file numbers; third: free channels. */
struct filestore_answer filestore_room(
    const uint8_t *blocks, size_t blocks_length,
    const uint8_t *block_records, size_t block_records_length,
    const uint8_t *file_records, size_t file_records_length,
    const uint8_t *channel_records, size_t channel_records_length);

/* The four tables that a host lends, for the functions below. */
struct fstore {
    uint8_t *blocks;
    size_t blocks_length;
    uint8_t *block_records;
    size_t block_records_length;
    uint8_t *file_records;
    size_t file_records_length;
    uint8_t *channel_records;
    size_t channel_records_length;
};

/* Lends four arrays: struct fstore s = FSTORE_LEND(blocks, block_records, file_records, channel_records); */
#define FSTORE_LEND(blocks, block_records, file_records, channel_records)                          \
    {                                                                                              \
        blocks, sizeof(blocks), block_records, sizeof(block_records), file_records,                \
            sizeof(file_records), channel_records, sizeof(channel_records)                         \
    }
#define FSTORE_LENT(s)                                                                             \
    (s)->blocks, (s)->blocks_length, (s)->block_records, (s)->block_records_length,                \
        (s)->file_records, (s)->file_records_length, (s)->channel_records,                         \
        (s)->channel_records_length
/* A string as bytes and a length. */
#define FSTORE_NAME(name) (const uint8_t *)(name), strlen(name)

/* The calls on lent tables; names are strings that end with a zero. */

static inline struct filestore_answer fstore_prepare(const struct fstore *s)
{
    return filestore_prepare(FSTORE_LENT(s));
}

static inline struct filestore_answer fstore_create(const struct fstore *s, const char *name)
{
    return filestore_create(FSTORE_LENT(s), FSTORE_NAME(name));
}

static inline struct filestore_answer fstore_open(const struct fstore *s, const char *name)
{
    return filestore_open(FSTORE_LENT(s), FSTORE_NAME(name));
}

static inline struct filestore_answer fstore_close(const struct fstore *s, uint32_t channel)
{
    return filestore_close(FSTORE_LENT(s), channel);
}

static inline struct filestore_answer fstore_read(
    const struct fstore *s, uint32_t channel, void *buffer, size_t buffer_length)
{
    return filestore_read(FSTORE_LENT(s), channel, (uint8_t *)buffer, buffer_length);
}

static inline struct filestore_answer fstore_write(
    const struct fstore *s, uint32_t channel, const void *data, size_t data_length)
{
    return filestore_write(FSTORE_LENT(s), channel, (const uint8_t *)data, data_length);
}

static inline struct filestore_answer fstore_seek(
    const struct fstore *s, uint32_t channel, uint32_t mode, uint32_t n)
{
    return filestore_seek(FSTORE_LENT(s), channel, mode, n);
}

static inline struct filestore_answer fstore_fstat(const struct fstore *s, uint32_t channel)
{
    return filestore_fstat(FSTORE_LENT(s), channel);
}

static inline struct filestore_answer fstore_link(
    const struct fstore *s, const char *old_name, const char *new_name)
{
    return filestore_link(FSTORE_LENT(s), FSTORE_NAME(old_name), FSTORE_NAME(new_name));
}

static inline struct filestore_answer fstore_unlink(const struct fstore *s, const char *name)
{
    return filestore_unlink(FSTORE_LENT(s), FSTORE_NAME(name));
}

static inline struct filestore_answer fstore_move(
    const struct fstore *s, const char *old_name, const char *new_name)
{
    return filestore_move(FSTORE_LENT(s), FSTORE_NAME(old_name), FSTORE_NAME(new_name));
}

static inline struct filestore_answer fstore_ls(
    const struct fstore *s, const char *name, void *buffer, size_t buffer_length)
{
    return filestore_ls(FSTORE_LENT(s), FSTORE_NAME(name), (uint8_t *)buffer, buffer_length);
}

static inline struct filestore_answer fstore_mkdir(const struct fstore *s, const char *name)
{
    return filestore_mkdir(FSTORE_LENT(s), FSTORE_NAME(name));
}

static inline struct filestore_answer fstore_rmdir(const struct fstore *s, const char *name)
{
    return filestore_rmdir(FSTORE_LENT(s), FSTORE_NAME(name));
}

static inline struct filestore_answer fstore_room(const struct fstore *s)
{
    return filestore_room(FSTORE_LENT(s));
}

/* A report in words. */
static inline const char *filestore_words(uint32_t report)
{
    static const char *const words[] = {
        "done",
        "the tables are not a store",
        "the name is badly written",
        "no such channel",
        "no such name",
        "no free channel",
        "it is a directory",
        "it is not a directory",
        "no free file number",
        "not enough free blocks",
        "it would be too big",
        "no such place to seek",
        "the name is in use",
        "the directory is not empty",
        "the buffer is too short",
        "the directory is in use",
    };
    return report < sizeof(words) / sizeof(words[0]) ? words[report] : "no such report";
}

#ifdef __cplusplus
}
#endif

#endif
