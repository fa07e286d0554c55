/*
 * The proved libraries, for C. A program that has whole facades links target/staticlib/libexport.a, the firmware of one server or one client
 * target/staticlib/libfirmware.a.
 *
 * A list of numbers or bytes is a pointer and a length, which counts numbers or bytes. No pointer is NULL, numbers are aligned, and what the pointers
 * of one call point to does not overlap. The libraries are for x86-64 and need memcpy and memset.
 *
 * Every function but hoyllaqe_run returns the refusal of document 01, 0 for none. A list of the wrong length, and a number that codes nothing, in an
 * unused place too, is refused with 2; 0 is right in every unused place. A refusal leaves every list as it was, and sets outcome or length to 0.
 *
 * docs/FLAT-FORM.md has the layout of a facade, a server, a client and a message, number by number, and the kinds of steps, refusals and outcomes.
 */
#ifndef HOYLLAQE_H
#define HOYLLAQE_H

#include <stddef.h>
#include <stdint.h>

#ifdef __cplusplus
extern "C" {
#endif

enum {
    HOYLLAQE_CONFIG = 7,     /* numbers of a configuration: S, C, A, skew (delta), detection (nu), mclt (mu), retention (theta) */
    HOYLLAQE_FACADE = 2778,  /* numbers of a facade */
    HOYLLAQE_SERVER = 423,   /* numbers of a server */
    HOYLLAQE_CLIENT = 4,     /* numbers of a client */
    HOYLLAQE_MESSAGE = 7,    /* numbers of a message */
    HOYLLAQE_OUTBOX = 29,    /* how many messages are sent, and room for four */
    HOYLLAQE_STEP = 4,       /* numbers of a step: its kind and three fields */
    HOYLLAQE_SCRIPT = 65536, /* the most bytes that a script may have */
    HOYLLAQE_OUTPUT = 1048576 /* bytes that hold the output of any script */
};

/* The fresh facade of a configuration. */
uint32_t hoyllaqe_fresh(const uint32_t *config, size_t config_length, uint32_t *facade, size_t facade_length);

/* A step: the facade becomes the next one, and outcome is 0, 1 (a condition is not met) or 2 (a dead receiver). Fields are in the order of document
 * 01, e in two's complement. Of a step with fewer than three fields the others are not looked at. */
uint32_t hoyllaqe_step(uint32_t *facade, size_t facade_length, uint32_t kind, uint32_t first, uint32_t second, uint32_t third, uint32_t *outcome);

/* The first of refusals 1 to 5 that reading the script through meets. */
uint32_t hoyllaqe_verdict(const uint8_t *script, size_t script_length);

/* Writes the script of a configuration and of steps of four numbers each, and says how long it is. */
uint32_t hoyllaqe_write(const uint32_t *config, size_t config_length, const uint32_t *steps, size_t steps_length, uint8_t *script,
                        size_t script_length, size_t *length);

/* Runs a script as the program rig does. Returns how many bytes were put at the front of the output: 0, and nothing is put, where it has less room
 * than HOYLLAQE_OUTPUT. */
size_t hoyllaqe_run(const uint8_t *script, size_t script_length, uint8_t *output, size_t output_length);

/* One server or one client on its own: these functions are in target/staticlib/libfirmware.a.
 *
 * number is its number among the servers or among the clients, and reading its clock reading. A refusal is the first of these that holds:
 *   2   a list that codes nothing, a number out of its range, a message for another party, interaction 0
 *   5   says above 1, or a wanted end above 2,000,000,000
 *   6   no server or client of that number; a notice about the server itself, or about one that does not exist
 *   7   a discover by a client that holds, a request by one not offered, a renewal by one that does not hold
 *   12  an interaction above 1,000,000
 * Where nothing is refused, the server or client becomes the next one, sent is what it sends, and outcome is as for a step.
 *
 * A new server is 1, 0, 0, 1, 1, 1, 1 and then 0s, a new client 0s. Only hoyllaqe_receive_message looks at whether a server is alive. The firmware keeps
 * that first number of its server at 1, and calls hoyllaqe_pass_time whenever its client's clock moves: no other function ends a hold. */

/* A message comes to the server. */
uint32_t hoyllaqe_receive_message(const uint32_t *config, size_t config_length, uint32_t number, uint32_t reading, uint32_t *server,
                                  size_t server_length, const uint32_t *message, size_t message_length, uint32_t *sent, size_t sent_length,
                                  uint32_t *outcome);

/* A notice comes to the server: server about is dead (says 0) or alive (says 1). */
uint32_t hoyllaqe_take_notice(const uint32_t *config, size_t config_length, uint32_t number, uint32_t reading, uint32_t *server,
                              size_t server_length, uint32_t about, uint32_t says, uint32_t *sent, size_t sent_length, uint32_t *outcome);

/* The server comes back after a failure. Whether it is alive stays as it was: that is not its own to say. */
uint32_t hoyllaqe_come_back(const uint32_t *config, size_t config_length, uint32_t number, uint32_t reading, uint32_t *server,
                            size_t server_length, uint32_t *sent, size_t sent_length, uint32_t *outcome);

/* The server drops old reservations. */
uint32_t hoyllaqe_clean_up(const uint32_t *config, size_t config_length, uint32_t number, uint32_t reading, uint32_t *server,
                           size_t server_length, uint32_t *sent, size_t sent_length, uint32_t *outcome);

/* A message comes to the client. */
uint32_t hoyllaqe_receive_reply(const uint32_t *config, size_t config_length, uint32_t number, uint32_t reading, uint32_t *client,
                                size_t client_length, const uint32_t *message, size_t message_length, uint32_t *sent, size_t sent_length,
                                uint32_t *outcome);

/* The client discovers, with a new interaction. */
uint32_t hoyllaqe_discover(const uint32_t *config, size_t config_length, uint32_t number, uint32_t reading, uint32_t *client,
                           size_t client_length, uint32_t interaction, uint32_t *sent, size_t sent_length, uint32_t *outcome);

/* The client requests the address that it was offered until the wanted end. */
uint32_t hoyllaqe_request(const uint32_t *config, size_t config_length, uint32_t number, uint32_t reading, uint32_t *client,
                          size_t client_length, uint32_t wanted, uint32_t *sent, size_t sent_length, uint32_t *outcome);

/* The client renews its hold until the wanted end, with a new interaction. */
uint32_t hoyllaqe_renew(const uint32_t *config, size_t config_length, uint32_t number, uint32_t reading, uint32_t *client,
                        size_t client_length, uint32_t wanted, uint32_t interaction, uint32_t *sent, size_t sent_length, uint32_t *outcome);

/* Time passed for the client: a hold whose end is not above the clock is over. */
uint32_t hoyllaqe_pass_time(const uint32_t *config, size_t config_length, uint32_t number, uint32_t reading, uint32_t *client,
                            size_t client_length, uint32_t *sent, size_t sent_length, uint32_t *outcome);

#ifdef __cplusplus
}
#endif

#endif
