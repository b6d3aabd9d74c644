#define _POSIX_C_SOURCE 200809L
#include "store.h"

#include <fcntl.h>
#include <stdio.h>
#include <sys/stat.h>
#include <unistd.h>

static const char FILE_NAME[] = "card", NEW_NAME[] = "card.new", LOCK_NAME[] = "lock";
enum {
    OWNER_ALONE = S_IRUSR | S_IWUSR
};

static int folder_fd = -1;

int store_open(const char *folder)
{
    struct flock whole = {.l_type = F_WRLCK, .l_whence = SEEK_SET};
    folder_fd = open(folder, O_RDONLY | O_DIRECTORY | O_CLOEXEC);
    if (folder_fd < 0) {
        return 0;
    }
    const int lock_fd = openat(folder_fd, LOCK_NAME, O_RDWR | O_CREAT | O_CLOEXEC, OWNER_ALONE);
    return lock_fd >= 0 && fcntl(lock_fd, F_SETLK, &whole) == 0; /* the lock ends with the process */
}

int store_has_file(void)
{
    return faccessat(folder_fd, FILE_NAME, F_OK, 0) == 0;
}

int store_write(const uint8_t *bytes, size_t count)
{
    const int fd = openat(folder_fd, NEW_NAME, O_WRONLY | O_CREAT | O_TRUNC | O_CLOEXEC, OWNER_ALONE);
    if (fd < 0) {
        return 0;
    }
    size_t written = 0;
    while (written < count) {
        const ssize_t more = write(fd, bytes + written, count - written);
        if (more <= 0) {
            break;
        }
        written += (size_t)more;
    }
    const int on_disk = written == count && fsync(fd) == 0;
    return close(fd) == 0 && on_disk && renameat(folder_fd, NEW_NAME, folder_fd, FILE_NAME) == 0 && fsync(folder_fd) == 0;
}

size_t store_read(uint8_t *bytes, size_t room_bytes)
{
    const int fd = openat(folder_fd, FILE_NAME, O_RDONLY | O_CLOEXEC);
    if (fd < 0) {
        return 0;
    }
    struct stat about;
    size_t count = 0;
    if (fstat(fd, &about) == 0 && about.st_size >= 0 && (size_t)about.st_size <= room_bytes) {
        while (count < (size_t)about.st_size) {
            const ssize_t more = read(fd, bytes + count, (size_t)about.st_size - count);
            if (more <= 0) {
                count = 0;
                break;
            }
            count += (size_t)more;
        }
    }
    (void)close(fd);
    return count;
}
