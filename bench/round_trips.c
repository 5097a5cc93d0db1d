/* Round trips with two servers in turn: round_trips TRIPS BATCHES REQUEST REPLY PORT PORT.
   For each batch it prints how many nanoseconds a trip took with each of them. A reply's last byte may be 0 or 1. */
#include "sockets.h"

/* a connection; while nobody listens it is tried again, for 10 seconds */
static int link_to(const char *port) {
    struct sockaddr_in place = at(port);
    for (int tries = 0; tries < 1000; tries++) {
        int link = socket(AF_INET, SOCK_STREAM, 0);
        if (connect(link, (struct sockaddr *)&place, sizeof place) == 0) {
            without_delay(link);
            return link;
        }
        close(link);
        usleep(10000);
    }
    exit(4);
}

static double now(void) {
    struct timespec time;
    clock_gettime(CLOCK_MONOTONIC, &time);
    return (double)time.tv_sec * 1e9 + (double)time.tv_nsec;
}

int main(int argc, char **argv) {
    if (argc != 7)
        return 2;
    int trips = atoi(argv[1]), batches = atoi(argv[2]);
    static unsigned char request[MOST], reply[MOST], got[MOST];
    size_t request_size = from_hex(request, argv[3]), reply_size = from_hex(reply, argv[4]);
    int links[2] = {link_to(argv[5]), link_to(argv[6])};
    /* what is measured first isn't printed */
    for (int batch = -1; batch < batches; batch++) {
        double took[2];
        for (int side = 0; side < 2; side++) {
            double began = now();
            for (int trip = 0; trip < trips; trip++) {
                if (!transmit(links[side], request, request_size) || !receive(links[side], got, reply_size))
                    return 5;
                if (memcmp(got, reply, reply_size - 1) != 0 || got[reply_size - 1] > 1)
                    return 5;
            }
            took[side] = (now() - began) / trips;
        }
        if (batch >= 0)
            printf("%.0f %.0f\n", took[0], took[1]);
    }
    return 0;
}
