/* Opens, sizes, reads and closes each file that a line of standard input names, into one buffer that grows; prints how
   many bytes there were. This is the least that counting files costs. */
#include <fcntl.h>
#include <stdio.h>
#include <stdlib.h>
#include <string.h>
#include <sys/stat.h>
#include <unistd.h>

int main(void) {
    char name[4096], *buffer = NULL;
    size_t room = 0;
    unsigned long long bytes = 0;
    while (fgets(name, sizeof name, stdin) != NULL) {
        name[strcspn(name, "\n")] = '\0';
        int file = open(name, O_RDONLY);
        struct stat status;
        if (file < 0 || fstat(file, &status) < 0) {
            perror(name);
            return 1;
        }
        if ((size_t)status.st_size + 1 > room) {
            room = 2 * (size_t)status.st_size + 1;
            buffer = realloc(buffer, room);
            if (buffer == NULL) {
                return 1;
            }
        }
        ssize_t got;
        while ((got = read(file, buffer, room)) > 0) {
            bytes += (unsigned long long)got;
        }
        close(file);
    }
    printf("%llu\n", bytes);
    return 0;
}
