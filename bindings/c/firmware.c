/* One server and one client, each with its own firmware, and this program in the place of the cable: a lease, a renewal and a return, and then what
 * is refused. After each call it prints the refusal, the outcome, how many messages are sent, and the state of the client with its first two numbers. A
 * refusal leaves what was sent before as it is. */
#include <stdio.h>

#include "hoyllaqe.h"

/* Two servers, a client, an address; skew 0 (clocks are exact), detection 5 (notices come every 5 ticks), mclt 4, retention 10. */
static const uint32_t config[HOYLLAQE_CONFIG] = {2, 1, 1, 0, 5, 4, 10};

/* Server 0 is new: alive, it believes everyone live. Client 0 is idle. */
static uint32_t server[HOYLLAQE_SERVER] = {1, 0, 0, 1, 1, 1, 1};
static uint32_t client[HOYLLAQE_CLIENT];
static uint32_t sent[HOYLLAQE_OUTBOX];
static uint32_t message[HOYLLAQE_MESSAGE];
static uint32_t outcome;

#define THE_SERVER config, HOYLLAQE_CONFIG, 0, reading, server, HOYLLAQE_SERVER
#define THE_CLIENT config, HOYLLAQE_CONFIG, 0, reading, client, HOYLLAQE_CLIENT
#define THE_MESSAGE message, HOYLLAQE_MESSAGE
#define ANSWERS sent, HOYLLAQE_OUTBOX, &outcome

static void print(const char *name, uint32_t refusal) {
    printf("%-16s %u %u %u   client %u %u %u\n", name, refusal, outcome, sent[0], client[0], client[1], client[2]);
}

/* The first message that was sent is the next to come. */
static void carry(void) {
    for (size_t i = 0; i < HOYLLAQE_MESSAGE; i++) {
        message[i] = sent[1 + i];
    }
}

int main(void) {
    uint32_t reading = 10;
    print("take notice", hoyllaqe_take_notice(THE_SERVER, 1, 1, ANSWERS));
    reading = 15;
    print("clean up", hoyllaqe_clean_up(THE_SERVER, ANSWERS));
    print("discover", hoyllaqe_discover(THE_CLIENT, 1, ANSWERS));
    carry();
    print("receive message", hoyllaqe_receive_message(THE_SERVER, THE_MESSAGE, ANSWERS));
    carry();
    print("receive reply", hoyllaqe_receive_reply(THE_CLIENT, THE_MESSAGE, ANSWERS));
    print("request", hoyllaqe_request(THE_CLIENT, 100, ANSWERS));
    carry();
    print("receive message", hoyllaqe_receive_message(THE_SERVER, THE_MESSAGE, ANSWERS));
    carry();
    print("receive reply", hoyllaqe_receive_reply(THE_CLIENT, THE_MESSAGE, ANSWERS));
    reading = 18;
    print("pass time", hoyllaqe_pass_time(THE_CLIENT, ANSWERS));
    print("renew", hoyllaqe_renew(THE_CLIENT, 200, 2, ANSWERS));
    carry();
    print("receive message", hoyllaqe_receive_message(THE_SERVER, THE_MESSAGE, ANSWERS));
    carry();
    print("receive reply", hoyllaqe_receive_reply(THE_CLIENT, THE_MESSAGE, ANSWERS));
    reading = 22;
    print("pass time", hoyllaqe_pass_time(THE_CLIENT, ANSWERS));
    print("come back", hoyllaqe_come_back(THE_SERVER, ANSWERS));
    print("discover", hoyllaqe_discover(THE_CLIENT, 3, ANSWERS));
    carry();
    print("receive message", hoyllaqe_receive_message(THE_SERVER, THE_MESSAGE, ANSWERS));
    print("not for it", hoyllaqe_receive_reply(THE_CLIENT, THE_MESSAGE, ANSWERS));
    print("says 2", hoyllaqe_take_notice(THE_SERVER, 1, 2, ANSWERS));
    print("past the end", hoyllaqe_take_notice(THE_SERVER, 2, 1, ANSWERS));
    print("not offered", hoyllaqe_request(THE_CLIENT, 100, ANSWERS));
    print("spent", hoyllaqe_discover(THE_CLIENT, 1000001, ANSWERS));
    return 0;
}
