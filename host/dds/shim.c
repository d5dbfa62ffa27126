/* The whole shim over Eclipse Cyclone DDS 0.10: what the seven bridge calls are there, and a count of what there is.
 *
 * An entity is Cyclone's own handle, a positive number. Every function gives a negative number, Cyclone's, where DDS
 * refused. A topic carries a client's bytes as they are: its type is one final struct with one sequence of octets, whose
 * name is the one that the client gave. For "a::B" that is, in IDL,
 *
 *     module a { @final struct B { sequence<octet> data; }; };
 */
#include <dds/dds.h>
#include <stddef.h>
#include <stdint.h>
#include <stdlib.h>

struct bytes {
    dds_sequence_t data;
};

/* How the type is written: one member, a sequence of single bytes. It has no key, and no description that a peer would
 * be held to: type names decide. */
static const uint32_t member[] = {
    DDS_OP_ADR | DDS_OP_TYPE_SEQ | DDS_OP_SUBTYPE_1BY, offsetof(struct bytes, data), DDS_OP_RTS
};

/* What a writer and a reader are made with. */
struct xrce_dds_quality {
    int32_t best_effort; /* 0: reliable */
    int32_t history;     /* the last so many samples are kept */
    int64_t blocking_ms; /* a reliable write that finds no room waits that long at most */
};

int32_t xrce_dds_participant(uint32_t domain) {
    return dds_create_participant(domain, NULL, NULL);
}

int32_t xrce_dds_topic(int32_t participant, const char *name, const char *type_name) {
    const dds_topic_descriptor_t type = {
        .m_size = sizeof(struct bytes),
        .m_align = dds_alignof(struct bytes),
        .m_typename = type_name,
        .m_nops = 2,
        .m_ops = member,
        .m_meta = "",
    };
    return dds_create_topic(participant, &type, name, NULL, NULL);
}

static dds_qos_t *quality_of(const struct xrce_dds_quality *given) {
    dds_qos_t *quality = dds_create_qos();
    dds_reliability_kind_t kind = given->best_effort ? DDS_RELIABILITY_BEST_EFFORT : DDS_RELIABILITY_RELIABLE;
    dds_qset_reliability(quality, kind, DDS_MSECS(given->blocking_ms));
    dds_qset_history(quality, DDS_HISTORY_KEEP_LAST, given->history);
    dds_qset_durability(quality, DDS_DURABILITY_VOLATILE);
    return quality;
}

int32_t xrce_dds_writer(int32_t participant, int32_t topic, const struct xrce_dds_quality *given) {
    dds_qos_t *quality = quality_of(given);
    dds_entity_t writer = dds_create_writer(participant, topic, quality, NULL);
    dds_delete_qos(quality);
    return writer;
}

int32_t xrce_dds_reader(int32_t participant, int32_t topic, const struct xrce_dds_quality *given) {
    dds_qos_t *quality = quality_of(given);
    dds_entity_t reader = dds_create_reader(participant, topic, quality, NULL);
    dds_delete_qos(quality);
    return reader;
}

/* DDS reads the bytes and keeps none of them. */
int32_t xrce_dds_write(int32_t writer, const uint8_t *data, uint32_t length) {
    struct bytes sample = { { ._maximum = length, ._length = length, ._buffer = (uint8_t *)data, ._release = false } };
    return dds_write(writer, &sample);
}

/* Takes one sample: 1, and its bytes on loan until it is given back; 0 if there is none. What tells that a writer is gone
 * comes as a sample without data, and is passed over. */
int32_t xrce_dds_take(int32_t reader, void **loan, const uint8_t **data, uint32_t *length) {
    for (;;) {
        void *sample[1] = { NULL };
        dds_sample_info_t info[1];
        dds_return_t taken = dds_take(reader, sample, info, 1, 1);
        if (taken <= 0) return taken;
        if (info[0].valid_data) {
            const struct bytes *bytes = sample[0];
            *loan = sample[0];
            *data = bytes->data._buffer;
            *length = bytes->data._length;
            return 1;
        }
        dds_return_loan(reader, sample, 1);
    }
}

void xrce_dds_give_back(int32_t reader, void *loan) {
    void *sample[1] = { loan };
    dds_return_loan(reader, sample, 1);
}

int32_t xrce_dds_delete(int32_t entity) {
    return dds_delete(entity);
}

const char *xrce_dds_reason(int32_t code) {
    return dds_strretcode(code);
}

/* The entities that this process has in DDS by Cyclone's own account, whoever made them: participants, topics, writers and
 * readers. Domains, and the publishers and subscribers that Cyclone makes around a writer or reader, aren't counted:
 * below `depth` 0 are the domains, below those the participants, then topics beside publishers and subscribers. */
static int32_t count_below(dds_entity_t entity, int depth) {
    dds_return_t many = dds_get_children(entity, NULL, 0);
    if (many <= 0) return 0;
    dds_entity_t *children = malloc((size_t)many * sizeof *children);
    if (children == NULL) return 0;
    dds_return_t found = dds_get_children(entity, children, (size_t)many);
    int32_t count = 0;
    for (dds_return_t at = 0; at < found && at < many; at++) {
        int32_t below = count_below(children[at], depth + 1);
        int implicit = depth == 0 || (depth == 2 && below != 0);
        count += below + (implicit ? 0 : 1);
    }
    free(children);
    return count;
}

int32_t xrce_dds_alive(void) {
    return count_below(DDS_CYCLONEDDS_HANDLE, 0);
}
