/* Answers so many connections at a port of the loopback with the same bytes, one after another, as bench/serving compares with. */
#include <arpa/inet.h>
#include <stdlib.h>
#include <string.h>
#include <sys/socket.h>
#include <unistd.h>

static const char REPLY[] =
    "HTTP/1.1 200 OK\r\nContent-Type: application/json\r\nContent-Length: 136\r\nConnection: close\r\n\r\n"
    "{\"dcs_last_seen\":201,\"patroni\":{\"name\":\"a\",\"scope\":\"bench\"},\"role\":\"master\",\"state\":\"running\",\"timeline\":2,"
    "\"xlog\":{\"location\":83886080}}";

int main(int argc, char **argv) {
    if (argc != 3)
        return 2;
    long count = atol(argv[1]);
    struct sockaddr_in at = {.sin_family = AF_INET, .sin_port = htons(atoi(argv[2])), .sin_addr = {htonl(INADDR_LOOPBACK)}};
    int one = 1, listener = socket(AF_INET, SOCK_STREAM, 0);
    setsockopt(listener, SOL_SOCKET, SO_REUSEADDR, &one, sizeof one);
    if (bind(listener, (struct sockaddr *)&at, sizeof at) || listen(listener, 128))
        return 1;
    for (; count; count--) {
        char head[4096];
        size_t had = 0;
        int peer = accept(listener, 0, 0);
        while (had < sizeof head - 1) {
            ssize_t got = read(peer, head + had, sizeof head - 1 - had);
            if (got <= 0)
                break;
            had += got;
            head[had] = 0;
            if (strstr(head, "\r\n\r\n"))
                break;
        }
        if (write(peer, REPLY, sizeof REPLY - 1) < 0)
            return 1;
        close(peer);
    }
    return 0;
}
