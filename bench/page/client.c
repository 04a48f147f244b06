/* Takes the place of `pmach` for server.mjs: cc -DSOCKET='"PATH"' client.c -o pmach. Sends the current directory, standard
   input and the arguments to the server, and ends with the output, the messages and the status that it returns. */
#include <stdint.h>
#include <stdio.h>
#include <stdlib.h>
#include <string.h>
#include <sys/socket.h>
#include <sys/un.h>
#include <unistd.h>

enum { FAILED = 97 }; /* no status of pmach */

static char *request;
static size_t length, capacity;

static void add(const void *bytes, size_t count) {
    if (length + count > capacity) {
        capacity = 2 * (length + count);
        request = realloc(request, capacity);
        if (request == 0) exit(FAILED);
    }
    memcpy(request + length, bytes, count);
    length += count;
}

static void add_part(const void *bytes, uint32_t count) {
    add(&count, sizeof count);
    add(bytes, count);
}

/* Reads a descriptor to its end, or `count` bytes of it. */
static size_t read_all(int from, char **bytes, size_t count) {
    size_t size = 0, most = 65536;
    *bytes = malloc(most);
    for (;;) {
        if (size == count) return size;
        if (size == most && (*bytes = realloc(*bytes, most *= 2)) == 0) exit(FAILED);
        ssize_t got = read(from, *bytes + size, (most < count ? most : count) - size);
        if (got < 0) exit(FAILED);
        if (got == 0) return size;
        size += got;
    }
}

static void write_all(int to, const char *bytes, size_t count) {
    while (count != 0) {
        ssize_t done = write(to, bytes, count);
        if (done <= 0) exit(FAILED);
        bytes += done;
        count -= done;
    }
}

int main(int count, char **arguments) {
    char directory[4096], *input, *answer;
    if (getcwd(directory, sizeof directory) == 0) return FAILED;
    uint32_t parts = count + 1;
    add(&parts, sizeof parts);
    add_part(directory, strlen(directory));
    size_t size = read_all(0, &input, SIZE_MAX);
    add_part(input, size);
    for (int k = 1; k < count; k++) add_part(arguments[k], strlen(arguments[k]));

    int server = socket(AF_UNIX, SOCK_STREAM, 0);
    struct sockaddr_un address = {.sun_family = AF_UNIX};
    strcpy(address.sun_path, SOCKET);
    if (connect(server, (void *)&address, sizeof address) != 0) return FAILED;
    write_all(server, request, length);
    shutdown(server, SHUT_WR);
    if (read_all(server, &answer, 12) != 12) return FAILED;
    uint32_t head[3]; /* status, bytes of output, bytes of messages */
    memcpy(head, answer, sizeof head);
    if (read_all(server, &answer, head[1] + head[2]) != head[1] + head[2]) return FAILED;
    write_all(1, answer, head[1]);
    write_all(2, answer + head[1], head[2]);
    return head[0];
}
