/* Reads a file whole and counts its line feeds by memchr: what no reader can do without. usage: floor FILE */
#include <fcntl.h>
#include <stdio.h>
#include <stdlib.h>
#include <string.h>
#include <sys/stat.h>
#include <unistd.h>

int main(int count, char **words) {
    struct stat told;
    int file = count == 2 ? open(words[1], O_RDONLY) : -1;
    if (file < 0 || fstat(file, &told) != 0) return 1;
    size_t size = (size_t)told.st_size, have = 0;
    char *text = malloc(size + 1);
    if (text == NULL) return 1;
    while (have < size) {
        ssize_t more = read(file, text + have, size - have);
        if (more <= 0) return 1;
        have += (size_t)more;
    }
    size_t lines = 0;
    for (char *at = text; (at = memchr(at, '\n', (size_t)(text + size - at))) != NULL; at++) lines++;
    printf("%zu\n", lines);
    return 0;
}
