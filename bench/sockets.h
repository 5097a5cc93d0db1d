/* What the echo server and its client share. */
#include <arpa/inet.h>
#include <netinet/in.h>
#include <netinet/tcp.h>
#include <stdint.h>
#include <stdio.h>
#include <stdlib.h>
#include <string.h>
#include <sys/socket.h>
#include <time.h>
#include <unistd.h>

/* the most bytes of a request or a reply */
enum { MOST = 4096 };

/* a port of 127.0.0.1 */
static struct sockaddr_in at(const char *port) {
    struct sockaddr_in place = {.sin_family = AF_INET, .sin_port = htons((uint16_t)atoi(port))};
    place.sin_addr.s_addr = htonl(INADDR_LOOPBACK);
    return place;
}

static void without_delay(int link) {
    int yes = 1;
    setsockopt(link, IPPROTO_TCP, TCP_NODELAY, &yes, sizeof yes);
}

/* The bytes of a text of hexadecimal digits. How many they are. */
static size_t from_hex(unsigned char *bytes, const char *text) {
    size_t size = strlen(text) / 2;
    if (size > MOST)
        exit(2);
    for (size_t k = 0; k < size; k++)
        sscanf(text + 2 * k, "%2hhx", &bytes[k]);
    return size;
}

/* Reads so many bytes. Whether they came. */
static int receive(int link, unsigned char *bytes, size_t size) {
    for (size_t have = 0; have < size;) {
        ssize_t got = read(link, bytes + have, size - have);
        if (got <= 0)
            return 0;
        have += (size_t)got;
    }
    return 1;
}

/* Writes so many bytes. Whether they were taken. */
static int transmit(int link, const unsigned char *bytes, size_t size) {
    for (size_t done = 0; done < size;) {
        ssize_t put = write(link, bytes + done, size - done);
        if (put <= 0)
            return 0;
        done += (size_t)put;
    }
    return 1;
}
