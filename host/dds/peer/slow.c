/* Loaded before Cyclone DDS, for a test: a topic that is called "slow" takes DDS two seconds to make. */
#define _GNU_SOURCE
#include <dds/dds.h>
#include <dlfcn.h>
#include <string.h>

typedef dds_entity_t create_topic(dds_entity_t, const dds_topic_descriptor_t *, const char *, const dds_qos_t *,
                                  const dds_listener_t *);

dds_entity_t dds_create_topic(dds_entity_t participant, const dds_topic_descriptor_t *type, const char *name,
                              const dds_qos_t *quality, const dds_listener_t *listener) {
    create_topic *own;
    *(void **)&own = dlsym(RTLD_NEXT, "dds_create_topic");
    if (strcmp(name, "slow") == 0) dds_sleepfor(DDS_SECS(2));
    return own(participant, type, name, quality, listener);
}
