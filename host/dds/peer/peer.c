/* A DDS program of its own for the tests: it knows nothing of the agent or its shim, and has the type from message.idl
 * by Cyclone's compiler. A line a thing seen, at once.
 *
 *   peer sub DOMAIN TOPIC COUNT SECONDS        prints 'ready', 'matched' once there is a writer, then samples until there
 *                                              were COUNT or the time is over; exit code 1 if there weren't
 *   peer pub DOMAIN TOPIC COUNT SIZE           waits for a reader, writes the driver's messages 1 to COUNT, and waits
 *                                              until they are acknowledged
 *   peer watch DOMAIN SECONDS                  prints what other processes have in the domain, whenever that changes:
 *                                              'participants N writers N readers N', then a line for each endpoint
 *   peer time DOMAIN TOPIC COUNT SIZE          how long a write takes that no agent has a part in, with the quality that
 *                                              the host gives its writers
 */
#include "message.h"
#include <dds/dds.h>
#include <stdio.h>
#include <stdlib.h>
#include <string.h>

#define MOST 512

static void fail(const char *what, dds_return_t code) {
    fprintf(stderr, "peer: %s: %s\n", what, dds_strretcode(code));
    exit(2);
}

static dds_entity_t made(const char *what, dds_entity_t entity) {
    if (entity < 0) fail(what, entity);
    return entity;
}

static dds_qos_t *reliable(void) {
    dds_qos_t *quality = dds_create_qos();
    dds_qset_reliability(quality, DDS_RELIABILITY_RELIABLE, DDS_SECS(10));
    dds_qset_history(quality, DDS_HISTORY_KEEP_ALL, 0);
    return quality;
}

static void show(const driver_Message *message) {
    for (uint32_t at = 0; at < message->data._length && at < 64; at++) putchar(message->data._buffer[at]);
    printf(" (%u)\n", message->data._length);
}

static int sub(dds_entity_t participant, dds_entity_t topic, int count, int seconds) {
    dds_entity_t reader = made("the reader", dds_create_reader(participant, topic, reliable(), NULL));
    dds_time_t until = dds_time() + DDS_SECS(seconds);
    int seen = 0, matched = 0;
    puts("ready");
    while (seen < count && dds_time() < until) {
        dds_subscription_matched_status_t status;
        dds_get_subscription_matched_status(reader, &status);
        if (!matched && status.current_count > 0) matched = puts("matched") >= 0;
        void *sample[1] = { NULL };
        dds_sample_info_t info[1];
        dds_return_t taken = dds_take(reader, sample, info, 1, 1);
        if (taken < 0) fail("taking", taken);
        if (taken == 0) {
            dds_sleepfor(DDS_MSECS(1));
            continue;
        }
        if (info[0].valid_data) {
            show(sample[0]);
            seen++;
        }
        dds_return_loan(reader, sample, 1);
    }
    printf("seen %d\n", seen);
    return seen == count ? 0 : 1;
}

/* The driver's message of that number: 8 digits, then letters that follow from the number. */
static void fill(uint8_t *bytes, int number, int size) {
    for (int at = 7, rest = number; at >= 0; at--, rest /= 10) bytes[at] = (uint8_t)('0' + rest % 10);
    for (int at = 8; at < size; at++) bytes[at] = (uint8_t)('a' + (number + at) % 26);
}

static void wait_for_reader(dds_entity_t writer) {
    dds_publication_matched_status_t status;
    do {
        dds_sleepfor(DDS_MSECS(1));
        dds_get_publication_matched_status(writer, &status);
    } while (status.current_count == 0);
    puts("matched");
}

static int pub(dds_entity_t participant, dds_entity_t topic, int count, int size) {
    dds_entity_t writer = made("the writer", dds_create_writer(participant, topic, reliable(), NULL));
    uint8_t *bytes = malloc((size_t)size + 8);
    driver_Message message = { { ._maximum = (uint32_t)size, ._length = (uint32_t)size, ._buffer = bytes } };
    wait_for_reader(writer);
    for (int number = 1; number <= count; number++) {
        fill(bytes, number, size);
        dds_return_t wrote = dds_write(writer, &message);
        if (wrote < 0) fail("writing", wrote);
    }
    dds_return_t acknowledged = dds_wait_for_acks(writer, DDS_SECS(10));
    if (acknowledged < 0) fail("waiting for acknowledgement", acknowledged);
    puts("written");
    free(bytes);
    return 0;
}

static int by_number(const void *one, const void *other) {
    double a = *(const double *)one, b = *(const double *)other;
    return (a > b) - (a < b);
}

static int time_writes(dds_entity_t participant, dds_entity_t topic, int count, int size) {
    dds_qos_t *quality = reliable();
    dds_qset_history(quality, DDS_HISTORY_KEEP_LAST, 64);
    dds_entity_t writer = made("the writer", dds_create_writer(participant, topic, quality, NULL));
    uint8_t *bytes = malloc((size_t)size + 8);
    double *took = malloc((size_t)count * sizeof *took);
    driver_Message message = { { ._maximum = (uint32_t)size, ._length = (uint32_t)size, ._buffer = bytes } };
    wait_for_reader(writer);
    for (int number = 0; number < count; number++) {
        fill(bytes, number + 1, size);
        dds_time_t start = dds_time();
        dds_return_t wrote = dds_write(writer, &message);
        took[number] = (double)(dds_time() - start);
        if (wrote < 0) fail("writing", wrote);
    }
    qsort(took, (size_t)count, sizeof *took, by_number);
    printf("write: half within %.1f µs, 99 in 100 within %.1f µs\n", took[count / 2] / 1e3, took[count * 99 / 100] / 1e3);
    return 0;
}

/* What DDS has told of one kind: the living ones of other processes. Text is made of each, to be compared and shown. */
struct seen {
    int count;
    char text[MOST * 96];
};

static void look_endpoints(dds_entity_t reader, const char *kind, dds_guid_t self, struct seen *seen) {
    static void *samples[MOST];
    static dds_sample_info_t infos[MOST];
    samples[0] = NULL;
    dds_return_t many = dds_read_mask(reader, samples, infos, MOST, MOST, DDS_ALIVE_INSTANCE_STATE);
    if (many < 0) fail("reading", many);
    seen->count = 0, seen->text[0] = 0;
    for (int at = 0; at < many; at++) {
        const dds_builtintopic_endpoint_t *end = samples[at];
        if (!infos[at].valid_data || memcmp(end->participant_key.v, self.v, 12) == 0) continue;
        char line[96];
        const uint8_t *key = end->key.v;
        snprintf(line, sizeof line, "%s %02x%02x%02x%02x:%02x%02x%02x%02x %.30s %.30s\n", kind, key[8], key[9], key[10], key[11],
                 key[12], key[13], key[14], key[15], end->topic_name, end->type_name);
        strcat(seen->text, line);
        seen->count++;
    }
    if (many > 0) dds_return_loan(reader, samples, many);
}

static int look_participants(dds_entity_t reader, dds_guid_t self) {
    static void *samples[MOST];
    static dds_sample_info_t infos[MOST];
    samples[0] = NULL;
    dds_return_t many = dds_read_mask(reader, samples, infos, MOST, MOST, DDS_ALIVE_INSTANCE_STATE);
    int count = 0;
    for (int at = 0; at < many; at++) {
        const dds_builtintopic_participant_t *one = samples[at];
        count += infos[at].valid_data && memcmp(one->key.v, self.v, 12) != 0;
    }
    if (many > 0) dds_return_loan(reader, samples, many);
    return count;
}

static int watch(dds_entity_t participant, int seconds) {
    dds_entity_t all = made("participants", dds_create_reader(participant, DDS_BUILTIN_TOPIC_DCPSPARTICIPANT, NULL, NULL));
    dds_entity_t write = made("writers", dds_create_reader(participant, DDS_BUILTIN_TOPIC_DCPSPUBLICATION, NULL, NULL));
    dds_entity_t read = made("readers", dds_create_reader(participant, DDS_BUILTIN_TOPIC_DCPSSUBSCRIPTION, NULL, NULL));
    dds_time_t until = dds_time() + DDS_SECS(seconds);
    static struct seen writers, readers;
    static char now[2 * MOST * 96 + 96], before[sizeof now];
    dds_guid_t self;
    dds_get_guid(participant, &self);
    while (dds_time() < until) {
        int participants = look_participants(all, self);
        look_endpoints(write, "writer", self, &writers);
        look_endpoints(read, "reader", self, &readers);
        snprintf(now, sizeof now, "participants %d writers %d readers %d\n%s%s", participants, writers.count, readers.count,
                 writers.text, readers.text);
        if (strcmp(now, before) != 0) {
            fputs(now, stdout);
            strcpy(before, now);
        }
        dds_sleepfor(DDS_MSECS(5));
    }
    return 0;
}

int main(int count, char **words) {
    setvbuf(stdout, NULL, _IOLBF, 0);
    if (count < 4) return fputs("peer: see the head of peer.c for what it takes\n", stderr), 2;
    int domain = atoi(words[2]), numbers[2] = { 0 };
    for (int at = 4; at < count && at < 6; at++) numbers[at - 4] = atoi(words[at]);
    dds_entity_t participant = made("the participant", dds_create_participant((dds_domainid_t)domain, NULL, NULL));
    if (strcmp(words[1], "watch") == 0) return watch(participant, atoi(words[3]));
    dds_entity_t topic = made("the topic", dds_create_topic(participant, &driver_Message_desc, words[3], NULL, NULL));
    if (strcmp(words[1], "sub") == 0) return sub(participant, topic, numbers[0], numbers[1]);
    if (strcmp(words[1], "pub") == 0) return pub(participant, topic, numbers[0], numbers[1]);
    if (strcmp(words[1], "time") == 0) return time_writes(participant, topic, numbers[0], numbers[1]);
    return 2;
}
