/*
 * The C interface of the agent.
 *
 * The host owns everything: it lends the agent's record, the three tables, the stores of held messages and of fragments, the place of
 * rebuilt bytes, the week's minutes and an output with each call, and keeps all but the output between calls as the last call left them. Every function
 * answers for every argument. What can't be done is refused with a number of enum xrce_refusal, and a refused call changes no byte of what was lent to it.
 *
 * A slice is a pointer and a number of elements. A pointer is never null, not even with 0 elements, and two slices that a function may
 * write share no byte. Nothing is kept of a pointer behind the call.
 */
#ifndef XRCE_AGENT_H
#define XRCE_AGENT_H

#include <stddef.h>
#include <stdint.h>

#ifdef __cplusplus
extern "C" {
#endif

/* Why a call is refused. */
enum xrce_refusal {
    XRCE_BUFFER_TOO_SHORT = 1,        /* bytes missing, no submessage */
    XRCE_UNKNOWN_SUBMESSAGE_ID = 2,   /* id not listed (byte given) */
    XRCE_UNKNOWN_OBJECT_KIND = 3,     /* object kind (byte given) */
    XRCE_UNKNOWN_STATUS_CODE = 4,     /* status code (byte given) */
    XRCE_PAYLOAD_LENGTH_MISMATCH = 5, /* payload under least length */
    XRCE_SESSION_FULL = 6,            /* max_clients sessions live */
    XRCE_FRAGMENT_SIZE_ZERO = 7,      /* fragment size 0 */
    XRCE_EMPTY_PAYLOAD = 8,           /* payload to cut is empty */
    XRCE_TOO_MANY_FRAGMENTS = 9,      /* over 65,535 fragments */
    XRCE_FRAGMENT_NUMBER = 10,        /* fragment number not below total */
    XRCE_MISSING_FRAGMENTS = 11,      /* fragments missing */
    XRCE_TOO_LONG = 12,               /* payload or string over 65,535 bytes */
    XRCE_OUTPUT_TOO_SHORT = 13,       /* lent output shorter than the result */
    XRCE_STORE_FULL = 14,             /* body over its slot; 17th held number; message over 1,024 */
    XRCE_OUT_OF_TURN = 15,            /* agent call out of turn, or answer of another kind */
    XRCE_OVER_LIMIT = 16,             /* max_clients over 255, lent store under its documented need, or tables altered past a limit */
    XRCE_NOT_IN_FRAGMENTS = 17,       /* a FRAGMENT or CREATE_CLIENT among rebuilt submessages: no call here is refused so */
    XRCE_ILL_FORMED = 18,             /* ill-formed UTF-8: no call here is refused so; a Topic with such names is answered ERR_INVALID_DATA */
    XRCE_WINDOW_FAULT = 19,           /* a window empty, outside the day, overlapping, out of order or a ninth */
    XRCE_NO_SUCH_MINUTE = 20          /* weekday over 6 or minute over 1,439 */
};

/* What xrce_process is given. */
enum xrce_input {
    XRCE_DATAGRAM = 0,  /* a datagram, with its time, weekday and minute */
    XRCE_CREATED = 1,   /* the bridge made the entity: its handle */
    XRCE_DONE = 2,      /* the bridge wrote, or deleted */
    XRCE_SAMPLE = 3,    /* the bridge read a sample: its bytes */
    XRCE_NO_SAMPLE = 4, /* the bridge had none */
    XRCE_FAILED = 5     /* the bridge failed */
};

/* The bridge call that the host has to make now. A Topic's name and type are well-formed UTF-8 (RFC 3629), with no zero behind them, and U+0000 may
 * stand in them: the length counts. Of a Topic whose strings are ill-formed or cut short there is no call: it is answered ERR_INVALID_DATA. */
enum xrce_call {
    XRCE_NO_CALL = 0,
    XRCE_CREATE_PARTICIPANT = 1, /* domain: in `handle` */
    XRCE_CREATE_TOPIC = 2,       /* participant: handle; name: start, len; type: type_start, type_len */
    XRCE_CREATE_WRITER = 3,      /* participant: handle; topic */
    XRCE_CREATE_READER = 4,      /* participant: handle; topic */
    XRCE_WRITE_DATA = 5,         /* writer: handle; data: start, len */
    XRCE_READ_DATA = 6,          /* reader: handle */
    XRCE_DELETE_ENTITY = 7       /* entity: handle */
};

/* The agent's record. The first fourteen numbers are the agent between two calls; the others are what the last xrce_agent_process told.
 * The functions take a slice of records, and look at the first. */
struct xrce_agent {
    uint64_t max_clients;
    uint64_t timeout_ms;
    uint64_t next;     /* the id pointer */
    uint64_t open;     /* the open bridge call: 0 none, 1 a CREATE's, 2 a WRITE_DATA's, 3 a READ_DATA's, 4 a DELETE's */
    uint64_t kind;     /* the object kind and the parent number of a CREATE's */
    uint64_t parent;
    uint64_t session;  /* its header's session and stream, its object's number, */
    uint64_t stream;
    uint64_t number;
    uint64_t at;       /* the place behind its submessage in the datagram, */
    uint64_t time;     /* and that datagram's time, */
    uint64_t is_open;  /* and 1 if its minute is open; */
    uint64_t left_at;  /* if it was rebuilt from fragments, the place behind it in the rebuilt bytes, */
    uint64_t left_end; /* and how many these are, else 0 */
    uint64_t wrote;    /* the bytes replied, at the start of the output */
    uint64_t call;     /* enum xrce_call; what it doesn't name below is 0 */
    uint64_t handle;
    uint64_t topic;
    uint64_t start;    /* parts of the datagram, or if left_end isn't 0 of the rebuilt bytes: where they start, and their length */
    uint64_t len;
    uint64_t type_start;
    uint64_t type_len;
};

/* A record of the table of objects: number, kind (1 to 6), whether the bridge made it, its handle then, and the parent number of its CREATE
 * (of a Participant, its domain). */
struct xrce_object {
    uint16_t number;
    uint8_t kind;
    uint8_t bridged;
    uint32_t handle;
    uint16_t parent;
};

/* A row of the table of sessions: whether it is live, key, last activity, objects in use, streams in use, the session's slot, a number
 * below max_clients that no other live session has: its part of the stores of held messages and of fragments (0 in a row that isn't
 * live); and of its fragments their total (0: it has none) and how many there are. A row of the table of streams. */
typedef uint64_t xrce_session_row[8];
typedef uint16_t xrce_stream_row[35];

/* The documented need: how many rows and records each table must have, whatever max_clients is (at most 255). */
enum { XRCE_SESSIONS = 256, XRCE_STREAMS = 2048, XRCE_OBJECTS = 8192 };

/* The store of held messages: so many bytes for each of max_clients, 16 messages of 1,024 bytes on each of 7 streams. A DATA reply on a
 * stream other than 0 stands there until its client acknowledges it, so that it can be sent again byte for byte. With max_clients 0 the
 * store may be empty. */
enum { XRCE_HELD = 114688 };

/* The store of fragments: for each of max_clients 64 bodies of up to 512 bytes, so many bytes, and so many lengths. A length is 0 while its
 * place is free, and 1 more than its body's length while it holds one. With max_clients 0 both may be empty. */
enum { XRCE_PARTS = 32768, XRCE_LENGTHS = 64 };

/* The place of rebuilt bytes, one for all clients: a call that a rebuilt submessage hands out shows parts of it. */
enum { XRCE_REBUILT = 32768 };

/* A window in which a weekday is open: the weekday, 0 to 6, and from and to in minutes of the day, 0 to 1,440. With 480 to 1,320, minute 480 is open and
 * 1,320 closed. The host says which weekday is 0, and whose clock counts. */
typedef uint16_t xrce_window[3];

/* The week's minutes, a byte each, minute m of weekday d at 1,440 * d + m: 1 where it is open, else 0. xrce_agent_setup writes them, and every other call
 * only reads them. */
enum { XRCE_HOURS = 10080 };

/* Of an answer: the refusal (0: none), its byte (with 2, 3 and 4), and the number that comes with "none". */
static inline unsigned xrce_refused(uint64_t answer) { return (unsigned)(answer % 256); }
static inline unsigned xrce_byte(uint64_t answer) { return (unsigned)(answer / 256 % 256); }
static inline uint64_t xrce_number(uint64_t answer) { return answer / 65536; }

/* The documented need for max_clients in bytes, all tables and stores together; refused: 16. The need is the answer's number. */
uint64_t xrce_need(uint64_t max_clients);

/* Sets the agent up over the tables, whatever stood in them: no session, and every limit as given. The stores and the
 * place of rebuilt bytes are measured, and none of them is looked at or written. Refused: 16, also if they have fewer than
 * XRCE_HELD * max_clients and XRCE_PARTS * max_clients bytes, XRCE_LENGTHS * max_clients lengths and XRCE_REBUILT bytes, or `hours` fewer
 * than XRCE_HOURS bytes; then 19.
 *
 * The windows are up to 8 a weekday; those of several weekdays may come mixed. Each begins where the one before it of its weekday ends, or later. They stay
 * until the next set-up, and are not looked at again: `hours` holds what they say. Without a window no minute is ever open; a host without quiet hours
 * gives seven, from 0 to 1,440. A lent array of windows may be empty. */
uint64_t xrce_agent_setup(struct xrce_agent *agent, size_t agents, xrce_session_row *sessions, size_t session_rows, xrce_stream_row *streams,
                          size_t stream_rows, struct xrce_object *objects, size_t object_records, const uint8_t *held, size_t held_bytes,
                          const uint8_t *parts, size_t part_bytes, const uint32_t *lengths, size_t length_count, const uint8_t *rebuilt,
                          size_t rebuilt_bytes, uint8_t *hours, size_t hours_bytes, const xrce_window *windows, size_t window_count,
                          uint64_t max_clients, uint64_t timeout_ms);

/*
 * A datagram (input XRCE_DATAGRAM, with its time, weekday and minute), or the bridge's answer to the open call (any other input), with the call's datagram
 * lent again, the handle of XRCE_CREATED and the bytes of XRCE_SAMPLE. Replies stand one behind the other at the start of the output, agent->wrote bytes in all,
 * each to be sent to the address that the datagram came from. Where agent->call isn't XRCE_NO_CALL the host makes that call and hands in its answer
 * before anything else. Refused, in this order: 15, 16, 20, 1 to 5, 12, 14, 13.
 *
 * WRITE_DATA to a known writer in a closed minute is answered ERR_INCOMPATIBLE, and no call is made; of an unknown writer it is ERR_UNKNOWN_REF at any time.
 * The datagram's weekday and minute count for all of its submessages, those behind a call and those rebuilt from fragments too: with an answer `hours`,
 * day and minute are not looked at.
 *
 * On a stream other than 0, DATA has the stream's next number as its sequence and is held: a sample of more than 1,014 bytes is refused as 14 there, and
 * the call stays open. An ACKNACK there is answered by the held messages that it lists. So an output of 2 * the datagram + the sample + 12 bytes is
 * enough for all other replies, and each bit that is set in the bitmap of an ACKNACK may ask for 1,024 bytes more.
 *
 * A FRAGMENT gets no reply of its own. The one that completes a message brings the replies and calls of the rebuilt submessages, up to 32,768 bytes of
 * them, under its datagram's header: so an output for a datagram that holds a FRAGMENT takes 65,536 bytes more, and so do the outputs for the answers to
 * its calls. While agent->left_end isn't 0 the host keeps the rebuilt bytes as it does tables: an answer over others, which don't read from
 * agent->left_at to agent->left_end, is refused as 16.
 */
uint64_t xrce_agent_process(struct xrce_agent *agent, size_t agents, xrce_session_row *sessions, size_t session_rows, xrce_stream_row *streams,
                            size_t stream_rows, struct xrce_object *objects, size_t object_records, uint8_t *held, size_t held_bytes,
                            uint8_t *parts, size_t part_bytes, uint32_t *lengths, size_t length_count, uint8_t *rebuilt,
                            size_t rebuilt_bytes, const uint8_t *hours, size_t hours_bytes, uint8_t *out, size_t room,
                            const uint8_t *datagram, size_t datagram_len, const uint8_t *sample, size_t sample_len, uint8_t input,
                            uint64_t time, uint8_t day, uint16_t minute, uint32_t handle);

/* Ends a session; the answer's number is 1 if it was live, else 0. No bridge call is made for its objects. Refused: 15, 16. */
uint64_t xrce_agent_remove(const struct xrce_agent *agent, size_t agents, xrce_session_row *sessions, size_t session_rows, uint8_t id);

/* A sweep: ends the sessions that are expired at that time and lists their ids, ascending, at the start of the output; the answer's
 * number is how many. Refused: 15, 16, 13. */
uint64_t xrce_agent_sweep(const struct xrce_agent *agent, size_t agents, xrce_session_row *sessions, size_t session_rows, uint8_t *out,
                          size_t room, uint64_t time);

/* The listing of a session: the numbers of its objects, each once, kind 6 down to 1 and ascending within a kind, at the start of the
 * output; the answer's number is how many. So every dependant stands before what it depends on: DELETEs in this order are never answered
 * ERR_INCOMPATIBLE. An id that isn't live has none. `room` counts numbers, and 32 always suffice. It only reads, takes no agent's record, and
 * is never out of turn: it answers while a call is open. Refused: 16, 13. */
uint64_t xrce_agent_list(const xrce_session_row *sessions, size_t session_rows, const struct xrce_object *objects, size_t object_records,
                         uint16_t *out, size_t room, uint8_t id);

/* The first open minute at or after one, round the week: the answer's number is 0 if no minute is ever open, else 1 more than 1,440 * its weekday + its
 * minute, which the three functions below take apart. It only reads, takes no agent's record, and is never out of turn: it answers while a call is open.
 * Refused: 16, 20. */
uint64_t xrce_agent_first_open(const uint8_t *hours, size_t hours_bytes, uint8_t day, uint16_t minute);

/* Of its answer, where it isn't refused: whether a minute is ever open, and then the weekday and the minute of the first. */
static inline int xrce_ever_open(uint64_t answer) { return xrce_number(answer) != 0; }
static inline uint8_t xrce_open_day(uint64_t answer) { return (uint8_t)((xrce_number(answer) - 1) / 1440); }
static inline uint16_t xrce_open_minute(uint64_t answer) { return (uint16_t)((xrce_number(answer) - 1) % 1440); }

/* For how many clients struct xrce_tables has stores of held messages and of fragments, 1 to 255. A program that needs fewer defines it before it includes
 * this header; xrce_setup refuses a greater max_clients as 16. */
#ifndef XRCE_MAX_CLIENTS
#define XRCE_MAX_CLIENTS 255
#endif

/* Tables of the documented need, the stores, the place of rebuilt bytes and the week's minutes: 300,896 bytes, and 147,712 for each of XRCE_MAX_CLIENTS. */
struct xrce_tables {
    xrce_session_row sessions[XRCE_SESSIONS];
    xrce_stream_row streams[XRCE_STREAMS];
    struct xrce_object objects[XRCE_OBJECTS];
    uint8_t held[XRCE_HELD * XRCE_MAX_CLIENTS];
    uint8_t parts[XRCE_PARTS * XRCE_MAX_CLIENTS];
    uint32_t lengths[XRCE_LENGTHS * XRCE_MAX_CLIENTS];
    uint8_t rebuilt[XRCE_REBUILT];
    uint8_t hours[XRCE_HOURS];
};

/* The calls over such tables. */
static inline uint64_t xrce_setup(struct xrce_agent *a, struct xrce_tables *t, const xrce_window *windows, size_t window_count,
                                  uint64_t max_clients, uint64_t timeout_ms) {
    return xrce_agent_setup(a, 1, t->sessions, XRCE_SESSIONS, t->streams, XRCE_STREAMS, t->objects, XRCE_OBJECTS,
                            t->held, sizeof t->held, t->parts, sizeof t->parts, t->lengths, XRCE_LENGTHS * XRCE_MAX_CLIENTS,
                            t->rebuilt, sizeof t->rebuilt, t->hours, sizeof t->hours, windows, window_count, max_clients, timeout_ms);
}

static inline uint64_t xrce_incoming(struct xrce_agent *a, struct xrce_tables *t, uint8_t *out, size_t room, const uint8_t *datagram,
                                     size_t datagram_len, uint64_t time, uint8_t day, uint16_t minute) {
    return xrce_agent_process(a, 1, t->sessions, XRCE_SESSIONS, t->streams, XRCE_STREAMS, t->objects, XRCE_OBJECTS,
                              t->held, sizeof t->held, t->parts, sizeof t->parts, t->lengths, XRCE_LENGTHS * XRCE_MAX_CLIENTS,
                              t->rebuilt, sizeof t->rebuilt, t->hours, sizeof t->hours, out, room, datagram, datagram_len, datagram, 0,
                              XRCE_DATAGRAM, time, day, minute, 0);
}

static inline uint64_t xrce_answer(struct xrce_agent *a, struct xrce_tables *t, uint8_t *out, size_t room, const uint8_t *datagram,
                                   size_t datagram_len, enum xrce_input told, uint32_t handle, const uint8_t *sample, size_t sample_len) {
    return xrce_agent_process(a, 1, t->sessions, XRCE_SESSIONS, t->streams, XRCE_STREAMS, t->objects, XRCE_OBJECTS,
                              t->held, sizeof t->held, t->parts, sizeof t->parts, t->lengths, XRCE_LENGTHS * XRCE_MAX_CLIENTS,
                              t->rebuilt, sizeof t->rebuilt, t->hours, sizeof t->hours, out, room, datagram, datagram_len, sample, sample_len,
                              (uint8_t)(told == XRCE_DATAGRAM ? 255 : told), 0, 0, 0, handle);
}

static inline uint64_t xrce_remove(const struct xrce_agent *a, struct xrce_tables *t, uint8_t id) {
    return xrce_agent_remove(a, 1, t->sessions, XRCE_SESSIONS, id);
}

static inline uint64_t xrce_sweep(const struct xrce_agent *a, struct xrce_tables *t, uint8_t *out, size_t room, uint64_t time) {
    return xrce_agent_sweep(a, 1, t->sessions, XRCE_SESSIONS, out, room, time);
}

/* The bytes that an open call's parts are of: those of its datagram, or the rebuilt ones. */
static inline const uint8_t *xrce_shown(const struct xrce_agent *a, const struct xrce_tables *t, const uint8_t *datagram) {
    return a->left_end == 0 ? datagram : t->rebuilt;
}

static inline uint64_t xrce_list(const struct xrce_tables *t, uint16_t *out, size_t room, uint8_t id) {
    return xrce_agent_list(t->sessions, XRCE_SESSIONS, t->objects, XRCE_OBJECTS, out, room, id);
}

static inline uint64_t xrce_first_open(const struct xrce_tables *t, uint8_t day, uint16_t minute) {
    return xrce_agent_first_open(t->hours, sizeof t->hours, day, minute);
}

#ifdef __cplusplus
}
#endif
#endif
