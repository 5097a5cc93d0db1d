/* Answers each request of so many bytes by one same reply, over one connection: echo_server PORT SIZE REPLY. */
#include "sockets.h"

int main(int argc, char **argv) {
    if (argc != 4)
        return 2;
    size_t size = strtoul(argv[2], NULL, 10), reply_size;
    static unsigned char request[MOST], reply[MOST];
    reply_size = from_hex(reply, argv[3]);
    struct sockaddr_in place = at(argv[1]);
    int door = socket(AF_INET, SOCK_STREAM, 0), yes = 1;
    setsockopt(door, SOL_SOCKET, SO_REUSEADDR, &yes, sizeof yes);
    if (bind(door, (struct sockaddr *)&place, sizeof place) != 0 || listen(door, 1) != 0)
        return 4;
    int link = accept(door, NULL, NULL);
    without_delay(link);
    while (receive(link, request, size))
        transmit(link, reply, reply_size);
    return 0;
}
