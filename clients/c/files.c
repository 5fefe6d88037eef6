/* The files of stores: the only code that opens, locks, maps and writes them. */
#define _GNU_SOURCE
#include "files.h"

#include <errno.h>
#include <fcntl.h>
#include <stdlib.h>
#include <string.h>
#include <sys/file.h>
#include <sys/mman.h>
#include <sys/stat.h>
#include <unistd.h>

#define SECTOR ((size_t)512)
/* The bytes of a journal's record before its sectors. */
#define HEAD ((size_t)8)

pthread_mutex_t corwaphi_table = PTHREAD_MUTEX_INITIALIZER;

/* ---- what is written */

static uint32_t little(const uint8_t *at)
{
    return (uint32_t)at[0] | (uint32_t)at[1] << 8 | (uint32_t)at[2] << 16 | (uint32_t)at[3] << 24;
}

/* Writes all of the bytes, from an offset on. */
static bool written(int file, const uint8_t *bytes, size_t length, off_t at)
{
    while (length) {
        ssize_t count = pwrite(file, bytes, length, at);
        if (count < 0 && errno == EINTR)
            continue;
        if (count <= 0)
            return false;
        bytes += count;
        at += count;
        length -= (size_t)count;
    }
    return true;
}

/* Whether a call has to be made again, because a signal came. */
static bool again(int result) { return result && errno == EINTR; }

static bool synced(int file)
{
    int result;
    while (again(result = fdatasync(file)))
        ;
    return !result;
}

static bool synced_whole(int file)
{
    int result;
    while (again(result = fsync(file)))
        ;
    return !result;
}

/* Whether a journal consists of records that end where it ends, and only of sectors that the file has. */
static bool is_journal(const struct file *file, const uint8_t *journal, size_t used)
{
    size_t at = 0;
    while (used - at >= HEAD) {
        size_t sector = little(journal + at), count = little(journal + at + 4);
        at += HEAD;
        if (count > (used - at) / SECTOR || (count && sector + count > file->length / SECTOR))
            return false;
        at += SECTOR * count;
    }
    return at == used;
}

bool corwaphi_file_make(const struct file *file, const uint8_t *journal, size_t used)
{
    if (!is_journal(file, journal, used))
        return false;
    for (size_t at = 0; at < used;) {
        uint32_t sector = little(journal + at), count = little(journal + at + 4);
        at += HEAD;
        if (!count && !synced(file->descriptor))
            return false;
        if (count && !written(file->descriptor, journal + at, SECTOR * count, (off_t)(SECTOR * sector)))
            return false;
        at += SECTOR * count;
    }
    return true;
}

/* ---- files that are opened and mapped */

uint32_t corwaphi_file_open(struct file *file, const char *path, int flags)
{
    struct stat named, opened;
    /* Another kind of file might wait for its other end, or have no sectors. */
    if (!stat(path, &named) && !S_ISREG(named.st_mode) && !S_ISBLK(named.st_mode)) {
        errno = S_ISDIR(named.st_mode) ? EISDIR : EINVAL;
        return CORWAPHI_FILE;
    }
    pthread_mutex_lock(&corwaphi_table);
    file->descriptor = open(path, O_RDWR | O_CLOEXEC | flags, 0666);
    if (file->descriptor >= 0 && file->descriptor < 3) {
        int low = file->descriptor;
        file->descriptor = fcntl(low, F_DUPFD_CLOEXEC, 3);
        close(low);
    }
    pthread_mutex_unlock(&corwaphi_table);
    if (file->descriptor < 0)
        return CORWAPHI_FILE;
    if (flock(file->descriptor, LOCK_EX | LOCK_NB))
        return errno == EWOULDBLOCK ? CORWAPHI_IN_USE : CORWAPHI_FILE;
    if (fstat(file->descriptor, &opened))
        return CORWAPHI_FILE;
    /* Whoever had the lock before may have given the name to another file. */
    if (stat(path, &named) || named.st_dev != opened.st_dev || named.st_ino != opened.st_ino)
        return CORWAPHI_IN_USE;
    return CORWAPHI_OK;
}

uint32_t corwaphi_file_map(struct file *file)
{
    off_t end = lseek(file->descriptor, 0, SEEK_END);
    if (end < 0)
        return CORWAPHI_FILE;
    if (end == 0 || (size_t)end % SECTOR || (size_t)end / SECTOR > UINT32_MAX)
        return CORWAPHI_BAD_GEOMETRY;
    file->journal = malloc(CORWAPHI_STORE_JOURNAL);
    if (!file->journal)
        return CORWAPHI_NO_MEMORY;
    file->length = (size_t)end;
    pthread_mutex_lock(&corwaphi_table);
    void *image = mmap(NULL, file->length, PROT_READ, MAP_SHARED, file->descriptor, 0);
    /* A mapping in a child would hold the file's lock. */
    if (image != MAP_FAILED && madvise(image, file->length, MADV_DONTFORK)) {
        munmap(image, file->length);
        image = MAP_FAILED;
    }
    pthread_mutex_unlock(&corwaphi_table);
    if (image == MAP_FAILED)
        return errno == ENOMEM ? CORWAPHI_NO_MEMORY : CORWAPHI_FILE;
    file->image = image;
    return CORWAPHI_OK;
}

void corwaphi_file_close(struct file *file)
{
    if (file->image)
        munmap((void *)(uintptr_t)file->image, file->length);
    free(file->journal);
    if (file->descriptor >= 0) {
        /* A child between fork and exec may have the descriptor too, so closing it would not release the lock. */
        flock(file->descriptor, LOCK_UN);
        close(file->descriptor);
    }
    *file = (struct file){.descriptor = -1};
}

/* ---- files that are made */

/* Syncs the folder of a file, and with it the file's name. */
static bool folder_synced(char *path)
{
    char *slash = strrchr(path, '/');
    if (slash)
        slash[slash == path ? 1 : 0] = 0;
    int folder = open(slash ? path : ".", O_RDONLY | O_DIRECTORY | O_CLOEXEC);
    bool done = folder >= 0 && synced_whole(folder);
    if (folder >= 0)
        close(folder);
    return done;
}

/* An empty store in an open file, written and durable. Its zeros are written too, since syncs of a file with holes are slower. */
static uint32_t formatted(struct file *file, const struct corwaphi_options *options)
{
    static const uint8_t zeros[65536];
    size_t room = CORWAPHI_STORE_FORMAT(options->log_sectors), end = SECTOR * options->sectors;
    file->length = end;
    file->journal = malloc(room);
    if (!file->journal)
        return CORWAPHI_NO_MEMORY;
    uint32_t answer = corwaphi_store_format(file->journal, room, &file->used, options->sectors, options->log_sectors);
    if (answer)
        return answer;
    int result;
    while (again(result = ftruncate(file->descriptor, 0)))
        ;
    if (result)
        return CORWAPHI_FILE;
    for (size_t at = 0; at < end; at += sizeof zeros)
        if (!written(file->descriptor, zeros, end - at < sizeof zeros ? end - at : sizeof zeros, (off_t)at))
            return CORWAPHI_FILE;
    return corwaphi_file_make(file, file->journal, file->used) && synced_whole(file->descriptor) ? CORWAPHI_OK : CORWAPHI_FILE;
}

/* Makes a store in a file next to the one of a path; then it gets the path's name, unless a file has it. */
static uint32_t created(struct file *file, char *path, const char *beside, const struct corwaphi_options *options)
{
    uint32_t answer = corwaphi_file_open(file, beside, O_CREAT);
    if (answer)
        return answer;
    answer = formatted(file, options);
    if (!answer && link(beside, path))
        answer = CORWAPHI_FILE;
    int error = errno;
    unlink(beside);
    errno = error;
    return answer || folder_synced(path) ? answer : CORWAPHI_FILE;
}

uint32_t corwaphi_file_create(struct file *file, const char *path, const struct corwaphi_options *options)
{
    static const char suffix[] = ".corwaphi-new";
    struct stat there;
    if (!lstat(path, &there)) {
        errno = EEXIST;
        return CORWAPHI_FILE;
    }
    size_t length = strlen(path);
    char *place = malloc(length + 1), *beside = malloc(length + sizeof suffix);
    uint32_t answer = CORWAPHI_NO_MEMORY;
    if (place && beside) {
        memcpy(place, path, length + 1);
        memcpy(beside, path, length);
        memcpy(beside + length, suffix, sizeof suffix);
        answer = created(file, place, beside, options);
    }
    free(place);
    free(beside);
    return answer;
}
