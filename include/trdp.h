/* Wheeltallow: TRDP (IEC 61375-2-3 Annex A) for a host in C. Link crates/trdp/out/libtrdp.a, which `rt lib` in crates/trdp
   makes; it needs no other library.

   The host has the sockets, the addresses and the clock, and lends all memory; nothing is kept between two calls. Every call
   ends, whatever it is given, and a refused call leaves all that was lent to it as it was (statistics aside, which count each
   arriving telegram).

   What the caller owes: a pointer leads to as many items as the length beside it says, and is not null even where that is 0;
   memory that a call may write overlaps no other that it is lent. Addresses and numbers are in the host's byte order; times are
   microseconds of one clock. Every value of every field that a host lends has a meaning. */
#ifndef TRDP_H
#define TRDP_H

#include <stdbool.h>
#include <stddef.h>
#include <stdint.h>

#ifdef __cplusplus
extern "C" {
#endif

/* Why a call is refused. */
enum trdp_refusal {
    TRDP_GRANTED = 0,
    TRDP_LENT_SIZES = 1,             /* more than 32 slots, or store not 1432 octets a slot; the record read is in use and says over 1432 */
    TRDP_TOO_SHORT = 2,              /* shorter than the header */
    TRDP_FRAME_CHECK = 3,            /* frame check differs */
    TRDP_VERSION = 4,                /* version's high octet is not 1 */
    TRDP_TYPE = 5,                   /* type not of this family */
    TRDP_LENGTH = 6,                 /* datasetLength over its limit, or datagram not header plus padded dataset */
    TRDP_TOPOGRAPHY = 7,             /* topography counters differ */
    TRDP_NO_MATCH = 8,               /* no subscription or listener matches */
    TRDP_STALE = 9,                  /* some match, none finds it fresh */
    TRDP_NO_SLOT = 10,               /* slot number too large or slot not in use */
    TRDP_RANGE = 11,                 /* range end not 0 and below its start */
    TRDP_FILTER_IN_USE = 12,         /* a filter equal in every field is in use */
    TRDP_NO_FREE_SLOT = 13,          /* no free slot */
    TRDP_NOT_DUE = 14,               /* publication not due */
    TRDP_TARGET_TOO_SHORT = 15,      /* target too short for the telegram */
    TRDP_DATASET_TOO_LONG = 16,      /* dataset too long */
    TRDP_SESSION_IN_USE = 17,        /* session identifier in use */
    TRDP_NO_FREE_SESSION = 18,       /* no free session */
    TRDP_NO_SESSION = 19,            /* no session of that identifier can take this */
    TRDP_URI = 20,                   /* URI field without a zero octet */
    TRDP_NOT_DESCRIBED = 21,         /* dataset id not described */
    TRDP_TOO_DEEP = 22,              /* nested deeper than 5 */
    TRDP_MALFORMED = 23,             /* description malformed, or over 4096 numbers */
    TRDP_DATA = 24,                  /* data end early or are left over */
    TRDP_DATA_TARGET_TOO_SHORT = 25  /* target shorter than the data */
};

/* msgType */
enum trdp_msg_type {
    TRDP_PD = 0x5064, /* process data */
    TRDP_PP = 0x5070, /* process data, reply */
    TRDP_MN = 0x4D6E, /* notification */
    TRDP_MR = 0x4D72, /* request */
    TRDP_MP = 0x4D70, /* reply */
    TRDP_MQ = 0x4D71, /* reply that asks for a confirm */
    TRDP_MC = 0x4D63, /* confirm */
    TRDP_ME = 0x4D65  /* error */
};

enum {
    TRDP_PD_PORT = 17224,
    TRDP_MD_PORT = 17225,
    TRDP_PD_HEADER = 40,       /* octets */
    TRDP_MD_HEADER = 116,
    TRDP_PD_DATASET = 1432,    /* the longest dataset */
    TRDP_MD_DATASET = 65388,
    TRDP_SLOTS = 32,           /* the most subscriptions in a table */
    TRDP_PART = 1432,          /* octets of the store that a slot owns: slot k from TRDP_PART * k on */
    TRDP_LISTENERS = 16,
    TRDP_SESSIONS = 16,
    TRDP_TABLES = 1280         /* octets of the listeners and sessions */
};

/* What a subscription shows after a timeout. */
enum trdp_behaviour { TRDP_ZERO = 0, TRDP_KEEP = 1, TRDP_SUBSTITUTE = 2 };

/* What reading a slot says of it. */
enum trdp_state { TRDP_NEVER_RECEIVED = 0, TRDP_VALID = 1, TRDP_TIMED_OUT = 2 };

/* What a session waits for. */
enum trdp_session_state {
    TRDP_FREE = 0,
    TRDP_WAITING_FOR_REPLY = 1,
    TRDP_OWING_CONFIRM = 2,
    TRDP_WITH_USER = 3,
    TRDP_WAITING_FOR_CONFIRM = 4
};

/* What became of an MD telegram. */
enum trdp_md_kind { TRDP_REFUSED = 0, TRDP_NOTIFIED = 1, TRDP_REQUESTED = 2, TRDP_TAKEN = 3 };

/* The header fields that PD and MD share. */
typedef struct trdp_common {
    uint32_t sequence_counter;
    uint16_t protocol_version;
    uint16_t msg_type;
    uint32_t com_id;
    uint32_t etb_topo_cnt;
    uint32_t op_trn_topo_cnt;
    uint32_t dataset_length; /* not looked at in writing: the dataset's own length is written */
} trdp_common;

typedef struct trdp_pd_header {
    trdp_common common;
    uint32_t reserved;
    uint32_t reply_com_id;
    uint32_t reply_ip_address;
} trdp_pd_header;

typedef struct trdp_md_header {
    trdp_common common;
    int32_t reply_status;
    uint32_t reply_timeout; /* microseconds, 0 = infinite */
} trdp_md_header;

/* Both ends 0: any sender; end 0: only the start; else start to end. */
typedef struct trdp_sender_range {
    uint32_t start;
    uint32_t end;
} trdp_sender_range;

typedef struct trdp_timing {
    uint64_t start;
    uint32_t timeout; /* 0: none */
} trdp_timing;

typedef struct trdp_topo_counts {
    uint32_t etb_topo_cnt;
    uint32_t op_trn_topo_cnt;
} trdp_topo_counts;

/* What comes with each arriving telegram. */
typedef struct trdp_arrival {
    uint32_t sender;
    uint32_t destination;
    uint64_t time;
    trdp_topo_counts local;
} trdp_arrival;

typedef struct trdp_filter {
    uint32_t com_id;
    trdp_sender_range senders;
    uint32_t destination; /* 0: any */
} trdp_filter;

/* The sender and counter last taken. */
typedef struct trdp_last_taken {
    uint8_t held; /* 0: nothing was taken since subscribing or since a timeout */
    uint32_t sender;
    uint32_t counter;
} trdp_last_taken;

/* A slot of the subscription table. */
typedef struct trdp_subscription {
    uint8_t used;      /* 0: free, any other: in use */
    trdp_filter filter;
    trdp_timing timing;
    uint8_t behaviour; /* enum trdp_behaviour; any other: substitute */
    uint8_t state;     /* enum trdp_state; any other: timed out */
    trdp_last_taken last;
    uint32_t length;   /* stored octets */
} trdp_subscription;

/* Arriving telegrams, each counter modulo 2^32. refused[R] counts those refused with R. */
typedef struct trdp_counters {
    uint32_t received;
    uint32_t delivered;
    uint32_t refused[40];
} trdp_counters;

typedef struct trdp_statistics {
    trdp_counters pd;
    trdp_counters md;
} trdp_statistics;

/* A publication; its header's sequence_counter is the next to be sent. */
typedef struct trdp_publication {
    trdp_pd_header header;
    uint32_t cycle;
    uint8_t sent; /* 0: nothing was sent yet */
    uint64_t last_sent;
} trdp_publication;

/* A slot, a count or a length; 0 where refused or nothing to say. */
typedef struct trdp_outcome {
    uint8_t refusal;
    size_t value;
} trdp_outcome;

typedef struct trdp_pd_datagram {
    uint8_t refusal;
    trdp_pd_header header; /* all zeros where refused */
} trdp_pd_datagram;

typedef struct trdp_md_datagram {
    uint8_t refusal;
    trdp_md_header header; /* all zeros where refused, the fields below too */
    uint8_t session_id[16];
    uint8_t source_uri[32];
    uint8_t destination_uri[32];
} trdp_md_datagram;

typedef struct trdp_sending {
    uint8_t refusal;
    size_t length;                /* octets written */
    trdp_publication publication; /* the record to keep */
} trdp_sending;

/* What a slot shows: the store's octets from start on, or the substitute set whole (then start and length are 0). */
typedef struct trdp_shown {
    uint8_t refusal;
    uint8_t state; /* enum trdp_state */
    bool substitute;
    size_t start;
    size_t length;
} trdp_shown;

typedef struct trdp_md_outcome {
    uint8_t kind;    /* enum trdp_md_kind */
    uint8_t refusal;
    int32_t status;  /* replyStatus of what was taken; or the status that a refusal carries, for the Me to be sent */
    size_t listener; /* of a notification or request */
    size_t session;  /* of a request, or of what was taken */
} trdp_md_outcome;

/* For each session 0, or why it was freed: -6 waiting for reply, -8 waiting for confirm, -2 owing one or with the user. */
typedef struct trdp_codes {
    int32_t codes[16];
} trdp_codes;

typedef struct trdp_session_seen {
    uint8_t refusal;
    uint8_t state; /* enum trdp_session_state */
    uint8_t id[16];
    uint64_t start;
    uint32_t timeout;
} trdp_session_seen;

/* ---- Telegrams ---- */

/* The frame check: CRC-32 of IEEE 802.3. */
uint32_t trdp_frame_check(const uint8_t *octets, size_t length);

/* A PD datagram taken apart into its header. Refusals: 2, 3, 4, 5, 6. */
trdp_pd_datagram trdp_take_pd(const uint8_t *datagram, size_t length);

/* A PD telegram written; value: octets written. Octets of the target behind them stay. Refusals: 4, 5, 16, 15. */
trdp_outcome trdp_write_pd(trdp_pd_header header, const uint8_t *dataset, size_t dataset_length, uint8_t *target,
                           size_t target_length);

/* An MD datagram taken apart. Refusals: 2, 3, 4, 5, 6. */
trdp_md_datagram trdp_take_md(const uint8_t *datagram, size_t length);

/* An MD telegram written: a session identifier of 16 octets, URI fields of 32; value: octets written. Refusals: 4, 5, 16, 20, 15. */
trdp_outcome trdp_write_md(trdp_md_header header, const uint8_t *session_id, const uint8_t *source_uri,
                           const uint8_t *destination_uri, const uint8_t *dataset, size_t dataset_length, uint8_t *target,
                           size_t target_length);

/* ---- Publications ---- */

/* A publication that has sent nothing yet, its first counter 0. Judges nothing. */
trdp_publication trdp_publish(trdp_pd_header header, uint32_t cycle);

/* A publication sent, if it is due: written into the target, its counter moved on. Refusals: 14, 4, 5, 16, 15. */
trdp_sending trdp_send(trdp_publication publication, uint64_t time, const uint8_t *dataset, size_t dataset_length,
                       uint8_t *target, size_t target_length);

/* ---- Datasets ---- */

/* Dataset `id` of the descriptions in `run` (id, number of elements, then type and count each), from the wire's form to the
   host's: little endian, without gaps; value: octets written. Refusals: 21, 22, 23, 24, 25. */
trdp_outcome trdp_to_host(const uint32_t *run, size_t numbers, uint32_t id, const uint8_t *source, size_t source_length,
                          uint8_t *target, size_t target_length);

/* The same from the host's form to the wire's. Refusals: 21, 22, 23, 24, 25. */
trdp_outcome trdp_to_wire(const uint32_t *run, size_t numbers, uint32_t id, const uint8_t *source, size_t source_length,
                          uint8_t *target, size_t target_length);

/* ---- Statistics ---- */

/* Statistics that have counted nothing. */
trdp_statistics trdp_no_statistics(void);

/* ---- Subscriptions: a table of at most 32 slots, and a store of 1432 octets for each ---- */

/* A slot that is free; a new table is full of them. */
trdp_subscription trdp_no_subscription(void);

/* Subscribes; value: the slot, the lowest free one. Its part of the store is zeroed and its supervision starts.
   `timeout` in microseconds, 0: none. Refusals: 1, 11, 12, 13. */
trdp_outcome trdp_subscribe(trdp_subscription *slots, size_t slots_length, uint8_t *store, size_t store_length,
                            trdp_filter filter, uint32_t timeout, uint8_t behaviour, uint64_t time);

/* Frees slot k and zeroes its part. Refusals: 1, 10. */
trdp_outcome trdp_unsubscribe(trdp_subscription *slots, size_t slots_length, uint8_t *store, size_t store_length, size_t k);

/* An arriving PD telegram, to every matching slot that finds it fresh; value: how many took it. Counted in statistics->pd, but
   not where refused with 1. Refusals: 1, 2, 3, 4, 5, 6, 7, 8, 9. */
trdp_outcome trdp_receive_pd(trdp_subscription *slots, size_t slots_length, uint8_t *store, size_t store_length,
                             trdp_statistics *statistics, trdp_arrival arrival, const uint8_t *datagram, size_t length);

/* Marks each slot whose timeout is up; value: how many were marked. Refusals: 1. */
trdp_outcome trdp_check_subscriptions(trdp_subscription *slots, size_t slots_length, uint8_t *store, size_t store_length,
                                      uint64_t time);

/* What slot k shows. Refusals: 1, 10. */
trdp_shown trdp_read(const trdp_subscription *slots, size_t slots_length, const uint8_t *store, size_t store_length, size_t k);

/* ---- Message sessions: 16 listeners and 16 sessions in TRDP_TABLES octets; all zeros are the empty tables ----
   Listener i from 48 i on: used 1 (0 free), 3 zeros, comId 4, range start 4, end 4, URI 32. Session i from 768 + 32 i on: state 1
   (enum trdp_session_state, any other free), 3 zeros, timeout 4, start 8, identifier 16. Numbers are little endian. Octets that
   something else wrote are read by this meaning. A granted call writes the one listener or session that it changed, a time check
   the sessions that it frees; a notification and a refused call write nothing. */

/* Adds a listener; value: its number, the lowest free one. `uri` is a field of 32 octets; an empty URI hears any destination.
   Refusals: 11, 20, 12, 13. */
trdp_outcome trdp_listen(uint8_t *tables, uint32_t com_id, trdp_sender_range senders, const uint8_t *uri);

/* Removes listener k. Refusals: 10. */
trdp_outcome trdp_unlisten(uint8_t *tables, size_t k);

/* Calls: a session that waits for reply; value: its number, the lowest free one. The Mr is made by trdp_write_md.
   Refusals: 17, 18. */
trdp_outcome trdp_call(uint8_t *tables, const uint8_t *session_id, uint32_t timeout, uint64_t time);

/* An arriving MD telegram, counted in statistics->md. Mn: notified, with its listener. Mr: requested, with listener and session.
   Mp, Me, Mq, Mc: taken, with replyStatus and session. Refusals: 2 to 7 and 20; then Mn 8; Mr 8 (status -3), 17, 18 (status -4);
   the others 19. */
trdp_md_outcome trdp_receive_md(uint8_t *tables, trdp_statistics *statistics, trdp_arrival arrival, const uint8_t *datagram,
                                size_t length);

/* The user's reply in session k: TRDP_MP frees it, TRDP_MQ waits for confirm with this timeout. Refusals: 5, 10, 19. */
trdp_outcome trdp_reply(uint8_t *tables, size_t k, uint16_t msg_type, uint32_t timeout, uint64_t time);

/* The user's confirm in session k frees it. Refusals: 10, 19. */
trdp_outcome trdp_confirm(uint8_t *tables, size_t k);

/* Frees every session whose time is up. */
trdp_codes trdp_check_sessions(uint8_t *tables, uint64_t time);

/* Session k as it stands. Refusals: 10 where k is 16 or more. */
trdp_session_seen trdp_session(const uint8_t *tables, size_t k);

#ifdef __cplusplus
}
#endif

#endif
