// Reads standard input to its end, 16 KiB a call, then writes it into a file from 1 MiB on, 32 KiB a call, and syncs it:
// the least that a program does which looks whether there is room for a stream before it writes any of it.
#include <fcntl.h>
#include <stdlib.h>
#include <unistd.h>

int main(int count, char **arguments)
{
    size_t room = 4096, length = 0;
    char *bytes = malloc(room);
    int file = count == 2 ? open(arguments[1], O_WRONLY) : -1;

    if (!bytes || file < 0)
        return 1;
    for (;;) {
        if (length == room && !(bytes = realloc(bytes, room *= 2)))
            return 1;
        size_t wanted = room - length < 16384 ? room - length : 16384;
        ssize_t given = read(0, bytes + length, wanted);
        if (given < 0)
            return 1;
        if (given == 0)
            break;
        length += given;
    }
    if (lseek(file, 1 << 20, SEEK_SET) < 0)
        return 1;
    for (size_t place = 0; place < length; place += 32768) {
        size_t wanted = length - place < 32768 ? length - place : 32768;
        if (write(file, bytes + place, wanted) != (ssize_t)wanted)
            return 1;
    }
    return fsync(file) != 0;
}
