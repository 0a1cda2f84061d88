#ifndef MEKURDAI_SPDM_H
#define MEKURDAI_SPDM_H

/*
 * Both ends of SPDM 1.2 sessions under pre-shared keys (DSP0274, DSP0277) over MCTP (DSP0236).
 *
 * Packets go in, packets come out: an end does no input or output, has no clock and no source of random values. The
 * caller gives it each packet that its link brings, sends each packet that the end has to send, and hands in 32
 * secret random bytes (the seed) when it opens the end. docs/EMBEDDING.md leads from nothing to a session.
 *
 * WHAT THE CALLER KEEPS, AND NO CALL TESTS
 *
 *  - Pointers are not null, also where the length beside them is 0 (SPDM_NOTHING is a pointer to nothing). They are
 *    aligned for their type, and point to as many initialised values as their length says.
 *  - What a call writes (an end, a room, a length, `told`) overlaps nothing else that it is given.
 *  - An end is filled with zeros before its first call, and then neither copied, moved nor changed but by these
 *    calls.
 *  - One thread at a time calls for an end. Different ends share nothing, so different threads may have them, if the
 *    three functions for memory may be called by each of these threads.
 *  - No call is made from a signal handler.
 *  - The pair of seed and boot number is never used again for another end or another life of this one: with them the
 *    random values of old sessions would come back.
 *
 * OWNERSHIP AND LIFETIMES. What a caller hands in stays the caller's, and no end keeps a pointer to it: open copies
 * what it needs, keys too. An open end owns blocks of memory that it took at open; close gives them back. An end that
 * is never closed keeps them. The keys and application data of a session are overwritten where it ends, and the
 * pre-shared keys, the seed, the sessions, the data that came last and a responder's buffers before close gives the
 * memory back. Copies on the stack are not overwritten.
 *
 * MEMORY. Only open takes memory and only open and close give it back, by three functions that the caller links; see
 * the end of this file. This is read of the code and measured in tests, and no proof says it.
 *
 * ANSWERS. Every call but close answers one number of enum spdm_answer. An answer other than SPDM_OK has changed
 * nothing, neither the end nor what the caller's pointers point to, with three exceptions: a command that is refused
 * with SPDM_WORN to SPDM_TOO_LONG leaves no packets to send, and is counted; a reset that is refused with SPDM_WORN or
 * SPDM_UNKNOWN_PEER leaves no packets to send; and after SPDM_ROOM the length that is needed is written. A call for an
 * end that is not open answers SPDM_CLOSED, whatever else it is given.
 *
 * This header and the library must come from one build: ask spdm_header_fits() once.
 */

#include <stddef.h>
#include <stdint.h>

#ifdef __cplusplus
extern "C" {
#endif

/* ---- What calls answer. Numbers that are not named here are never answered. ------------------------------------- */

enum spdm_answer {
    SPDM_OK = 0,
    SPDM_CLOSED = 1,       /* the end is not open */
    SPDM_OPEN = 2,         /* the end is open already */
    SPDM_MEMORY = 3,       /* a request for memory was refused */
    SPDM_ROOM = 4,         /* the bytes do not fit into the room */
    SPDM_NONE = 5,         /* nothing has this index */
    SPDM_UNKNOWN_PEER = 6, /* no requester has this endpoint ID */
    SPDM_HEADER = 7,       /* this header is not that of the library */
    SPDM_BOOTS_SPENT = 8,  /* all boot numbers were used */

    /* what is wrong with an argument */
    SPDM_BAD_EID = 16,        /* an endpoint ID is not from 8 to 254 */
    SPDM_BAD_PSK = 17,        /* a pre-shared key has not 1 to 64 bytes */
    SPDM_BAD_ALGORITHMS = 18, /* algorithms are none of 1, 2 and 3 */
    SPDM_BAD_BOOT = 19,       /* the boot number is above 2^24 - 2 */
    SPDM_BAD_COMMAND = 20,    /* no command has this number */
    SPDM_BAD_POLICY = 21,     /* the text of a policy has a bad line, or more than 4 MiB */

    /* what is wrong with a configuration */
    SPDM_TOO_MANY_REQUESTERS = 32, /* more than eight */
    SPDM_SAME_EID = 33,            /* two ends with one endpoint ID */
    SPDM_SAME_PSK = 34,            /* two requesters with one pre-shared key */
    SPDM_SIZE_RANGE = 35,          /* a size, the unit, the padding, a hint or the opaque data is out of its range */
    SPDM_BLOCK_INDEX = 36,         /* the index of a block is 0 or 255 */
    SPDM_BLOCK_INDEX_TAKEN = 37,   /* two blocks have one index */
    SPDM_BLOCKS_TOO_LONG = 38,     /* all blocks together have more than 4,054 bytes */

    /* why a command is not done; of SPDM_WORN also a reset */
    SPDM_WORN = 48,             /* 2^40 packets and commands were taken: close the end, open it with the next boot */
    SPDM_NOTHING_TO_RETRY = 49, /* no request is outstanding */
    SPDM_BUSY = 50,             /* a request is outstanding: its answer is awaited, or SPDM_RETRY */
    SPDM_NOT_CONNECTED = 51,    /* nothing was negotiated */
    SPDM_NO_SUCH_SESSION = 52,  /* no live session has this ID */
    SPDM_SESSION_LIMIT = 53,    /* four sessions are live */
    SPDM_NOT_NEGOTIATED = 54,   /* the capability was not negotiated */
    SPDM_BAD_SUMMARY = 55,      /* the kind of summary is none of 0, 1 and 255 */
    SPDM_KEY_SPENT = 56,        /* the keys of the session have sealed as many records as they may */
    SPDM_TOO_LONG = 57,         /* the data have more than 1,024 bytes, or are too long for the responder */

    /* why application data are not queued as a reply; also SPDM_UNKNOWN_PEER */
    SPDM_REPLY_TOO_LONG = 64, /* more than 1,024 bytes */
    SPDM_REPLY_FULL = 65      /* 16 messages wait */
};

/* ---- What a packet led to ---------------------------------------------------------------------------------------- */

enum spdm_kind {
    /* at a responder */
    SPDM_ANSWERED = 1, /* a request was answered; number: its code */
    SPDM_TAKEN = 2,    /* application data came in session; spdm_responder_data has them */
    SPDM_REFUSED = 3,  /* a request was refused; number: the error code */
    SPDM_UNOPENED = 4, /* no session opens the record, and DecryptError is sent */
    SPDM_SAME = 5,     /* the last message or record came again, and its stored answer is sent again */
    SPDM_MORE = 6,     /* more packets of the body are awaited */
    SPDM_IGNORED = 7,  /* nothing is sent; cause, detail */

    /* at a requester */
    SPDM_REQ_PROGRESS = 16, /* a further message is sent */
    SPDM_REQ_MORE = 17,     /* more packets of the body are awaited */
    SPDM_REQ_DONE = 18,     /* the command is done; cause: which; session, or number of measurements */
    SPDM_REQ_REFUSED = 19,  /* the request was refused; number: the error code */
    SPDM_REQ_WARNED = 20,   /* a clear ERROR came to a request of a session, unprotected; number: its code */
    SPDM_REQ_STOPPED = 21,  /* the negotiation ended without a connection; cause, detail */
    SPDM_REQ_LOST = 22,     /* session is gone; cause, detail, number */
    SPDM_REQ_IGNORED = 23   /* nothing changed but an unfinished body; cause, detail, number */
};

/* cause of SPDM_REQ_DONE */
enum spdm_done {
    SPDM_CONNECTED = 1,
    SPDM_OPENED = 2,
    SPDM_DATA_ANSWERED = 3, /* spdm_requester_data has the answer */
    SPDM_ALIVE = 4,
    SPDM_KEYS_UPDATED = 5,
    SPDM_MEASURED = 6, /* number: of all blocks for operation 0, else of those in the record, which
                          spdm_requester_data has */
    SPDM_ENDED = 7
};

/* cause of SPDM_IGNORED */
enum spdm_ignored {
    SPDM_IGNORED_WORN = 1,         /* 2^40 packets were taken: close the end, and open it with the next boot */
    SPDM_IGNORED_PACKET = 2,       /* no packet; detail: enum spdm_packet_fault */
    SPDM_IGNORED_DROPPED = 3,      /* dropped in message assembly; detail: enum spdm_drop */
    SPDM_IGNORED_UNKNOWN_PEER = 4, /* no requester has its source */
    SPDM_IGNORED_NOT_REQUEST = 5,  /* the tag owner bit is not set */
    SPDM_IGNORED_OTHER_TYPE = 6    /* neither an SPDM message nor a secured one */
};

/* cause of SPDM_REQ_IGNORED */
enum spdm_req_ignored {
    SPDM_REQ_IGNORED_WORN = 1,
    SPDM_REQ_IGNORED_PACKET = 2,  /* detail: enum spdm_packet_fault */
    SPDM_REQ_IGNORED_DROPPED = 3, /* detail: enum spdm_drop */
    SPDM_REQ_IGNORED_NOT_RESPONSE = 4,
    SPDM_REQ_IGNORED_NOTHING_OUTSTANDING = 5,
    SPDM_REQ_IGNORED_WRONG_TAG = 6,
    SPDM_REQ_IGNORED_OTHER_TYPE = 7,
    SPDM_REQ_IGNORED_WRONG_PLACE = 8, /* a record to a clear request, or a clear message to one of a session */
    SPDM_REQ_IGNORED_TOO_LONG = 9,
    SPDM_REQ_IGNORED_MALFORMED = 10, /* number: the place of the byte */
    SPDM_REQ_IGNORED_CHUNK = 11,     /* detail: enum spdm_chunk_fault */
    SPDM_REQ_IGNORED_BAD_VERIFY = 12,
    SPDM_REQ_IGNORED_RECORD = 13 /* detail: enum spdm_record_fault */
};

/* cause of SPDM_REQ_STOPPED */
enum spdm_stop {
    SPDM_STOP_NO_VERSION = 1,
    SPDM_STOP_CAPS = 2,      /* detail: enum spdm_caps_fault */
    SPDM_STOP_NO_CHOICE = 3, /* no common algorithms */
    SPDM_STOP_TOO_LONG = 4   /* NEGOTIATE_ALGORITHMS is too long for the responder */
};

/* cause of SPDM_REQ_LOST: what a record that opened held */
enum spdm_lost {
    SPDM_LOST_TOO_LONG = 1,
    SPDM_LOST_MALFORMED = 2, /* number: the place of the byte */
    SPDM_LOST_WRONG_KIND = 3,
    SPDM_LOST_REFUSED = 4, /* number: the error code */
    SPDM_LOST_CHUNK = 5    /* detail: enum spdm_chunk_fault */
};

enum spdm_packet_fault { SPDM_PACKET_SHORT = 1, SPDM_PACKET_WRONG_VERSION = 2 };

enum spdm_drop {
    SPDM_DROP_NOT_OURS = 1,
    SPDM_DROP_NO_START = 2,
    SPDM_DROP_WRONG_SEQUENCE = 3,
    SPDM_DROP_WRONG_SIZE = 4,
    SPDM_DROP_TOO_LONG = 5,
    SPDM_DROP_INTEGRITY_SET = 6
};

enum spdm_record_fault {
    SPDM_RECORD_SHORT = 1,
    SPDM_RECORD_WRONG_ID = 2,
    SPDM_RECORD_WRONG_NUMBER = 3,
    SPDM_RECORD_WRONG_LENGTH = 4,
    SPDM_RECORD_BAD_TAG = 5,
    SPDM_RECORD_BAD_INNER_LENGTH = 6,
    SPDM_RECORD_KEY_SPENT = 7
};

enum spdm_chunk_fault {
    SPDM_CHUNK_WRONG_HANDLE = 1,
    SPDM_CHUNK_WRONG_NUMBER = 2,
    SPDM_CHUNK_WRONG_SIZE = 3,
    SPDM_CHUNK_TOO_LARGE = 4,
    SPDM_CHUNK_EARLY_LAST = 5,
    SPDM_CHUNK_MISSING_LAST = 6
};

enum spdm_caps_fault {
    SPDM_CAPS_SIZE_TOO_SMALL = 1,
    SPDM_CAPS_SIZES_CROSSED = 2,
    SPDM_CAPS_NO_PSK = 3,
    SPDM_CAPS_NO_PROTECTION = 4
};

/* What a packet led to. What a case does not carry is 0. */
struct spdm_told {
    uint32_t kind;    /* enum spdm_kind */
    uint32_t cause;
    uint32_t detail;
    uint32_t session; /* ReqSessionID in the low half, RspSessionID in the high one */
    uint64_t number;
};

/* ---- What an end shows ------------------------------------------------------------------------------------------- */

enum spdm_phase { SPDM_FRESH = 0, SPDM_VERSIONED = 1, SPDM_CAPABLE = 2, SPDM_NEGOTIATED = 3 };

enum spdm_stage { SPDM_HANDSHAKE = 1, SPDM_ESTABLISHED = 2, SPDM_VERIFYING = 3 };

/* algorithms, of a configuration and of a session */
enum spdm_hash { SPDM_SHA_256 = 1, SPDM_SHA_384 = 2, SPDM_BOTH_HASHES = 3 };

enum spdm_aead { SPDM_AES_128_GCM = 1, SPDM_AES_256_GCM = 2, SPDM_BOTH_AEADS = 3 };

struct spdm_session {
    uint32_t id; /* ReqSessionID in the low half, RspSessionID in the high one */
    uint32_t stage;
    uint64_t request_epoch;  /* how often the key of requests was updated */
    uint64_t response_epoch; /* how often the key of responses was updated */
    uint32_t request_next;   /* sequence number of the next request record */
    uint32_t response_next;  /* sequence number of the next response record */
    uint64_t taken;          /* application messages received at this end */
    uint32_t hash_alg;
    uint32_t aead_alg;
    uint32_t measure;  /* 1: measurements were chosen */
    uint32_t hash_len; /* 32 or 48 */
    uint8_t hash[48];  /* the hash of the transcript, with zeros behind it: both ends of a session show the same */
};

/* An application message that a packet would bring. */
struct spdm_message {
    uint32_t eid;     /* the endpoint ID of the requester that sends it */
    uint32_t session; /* ReqSessionID in the low half, RspSessionID in the high one */
};

/* What became of a session. */
enum spdm_change_kind {
    SPDM_CHANGE_NONE = 0,        /* nothing */
    SPDM_CHANGE_BEGAN = 1,       /* session: its handshake began */
    SPDM_CHANGE_ESTABLISHED = 2, /* session: its handshake is done */
    SPDM_CHANGE_GONE = 3,        /* session: there is none any more */
    SPDM_CHANGE_REPLACED = 4     /* session: it is gone, and by is in its place */
};

struct spdm_change {
    uint32_t kind; /* enum spdm_change_kind */
    uint32_t session;
    uint32_t by;
};

/* What an attestor decided. */
enum spdm_verdict_kind {
    SPDM_VERDICT_GOING = 0,     /* nothing was decided at this packet */
    SPDM_VERDICT_FAILED = 1,    /* no record will come */
    SPDM_VERDICT_TRUSTED = 2,   /* the record is what the policy expects */
    SPDM_VERDICT_MALFORMED = 3, /* number: where it is no block, in bytes from the front */
    SPDM_VERDICT_REPEATED = 4,  /* number: the index of a block that came twice */
    SPDM_VERDICT_UNKNOWN = 5,   /* number: the index of a block that no rule speaks of */
    SPDM_VERDICT_DIFFERS = 6,   /* number: the index of a block that has another type or value */
    SPDM_VERDICT_MISSING = 7    /* number: the index of a block that is expected and did not come */
};

struct spdm_verdict {
    uint32_t kind; /* enum spdm_verdict_kind */
    uint64_t number;
};

/* ---- How an end is set up ---------------------------------------------------------------------------------------- */

/* What an end announces. Of a capability, a byte other than 0 is yes. */
struct spdm_offer {
    uint8_t hash; /* enum spdm_hash */
    uint8_t aead; /* enum spdm_aead */
    uint8_t measure;
    uint8_t heartbeat;
    uint8_t key_update;
    uint8_t chunk;
};

struct spdm_responder_config {
    uint8_t eid;  /* its endpoint ID, 8 to 254 */
    uint8_t beat; /* HeartbeatPeriod in seconds; 0: sessions are not timed */
    struct spdm_offer offer;
    uint32_t transfer; /* DataTransferSize, 42 to 4,096 */
    uint32_t max;      /* MaxSPDMmsgSize, from transfer to 4,096; without chunk equal to transfer */
    uint16_t unit;     /* payload bytes of a packet, 64 to 1,024 */
    uint32_t boot;     /* the number of earlier boots with this seed, at most 2^24 - 2 */
    const uint8_t *opaque; /* OpaqueData of PSK_EXCHANGE_RSP, at most 1,024 bytes */
    size_t opaque_len;
    const uint8_t *seed; /* 32 secret random bytes */
};

struct spdm_requester_config {
    uint8_t eid;       /* its endpoint ID, 8 to 254 */
    uint8_t responder; /* that of its responder */
    uint8_t pad;       /* random bytes in each record that a command sends, at most 16 */
    struct spdm_offer offer;
    uint32_t transfer; /* as for a responder */
    uint32_t max;
    uint16_t unit;
    uint32_t boot;
    const uint8_t *hint; /* PSKHint, at most 64 bytes */
    size_t hint_len;
    const uint8_t *psk; /* the pre-shared key, 1 to 64 bytes */
    size_t psk_len;
    const uint8_t *opaque; /* OpaqueData of PSK_EXCHANGE, at most 1,024 bytes */
    size_t opaque_len;
    const uint8_t *seed; /* 32 secret random bytes */
};

/* A requester that a responder knows. */
struct spdm_known {
    uint8_t eid;
    const uint8_t *hint;
    size_t hint_len;
    const uint8_t *psk;
    size_t psk_len;
};

/* A measurement of a responder (DSP0274, "DMTF measurement specification"). */
struct spdm_block {
    uint8_t index; /* 1 to 254 */
    uint8_t value_type;
    uint8_t tcb; /* not 0: it belongs to the trusted computing base */
    const uint8_t *value;
    size_t value_len;
};

/* A pointer to nothing, for a length of 0. */
#define SPDM_NOTHING ((const uint8_t *)"")

/* ---- Ends. Their fields are the library's. ----------------------------------------------------------------------- */

struct spdm_responder {
    void *held;
    uint32_t mark;
};

struct spdm_requester {
    void *held;
    uint32_t mark;
};

/* A requester that measures its responder in a session, and tells whether the record is what a policy expects. */
struct spdm_attestor {
    void *held;
    uint32_t mark;
};

/*
 * The sessions with one requester as a caller last asked for them (spdm_responder_changes); zeros at first. Its fields
 * are the library's.
 */
struct spdm_watched {
    uint16_t req, rsp;
    uint32_t standing;
};

struct spdm_watch {
    struct spdm_watched first, second, third, fourth;
};

/* The sizes of the structs above. */
struct spdm_sizes {
    size_t responder, requester, attestor, responder_config, requester_config, known, block, told, session, message,
        watch, change, verdict;
};

/* SPDM_OK, or SPDM_HEADER if a size is not that of the library. */
uint32_t spdm_sizes_fit(const struct spdm_sizes *sizes);

static inline uint32_t spdm_header_fits(void) {
    struct spdm_sizes sizes;
    sizes.responder = sizeof(struct spdm_responder);
    sizes.requester = sizeof(struct spdm_requester);
    sizes.attestor = sizeof(struct spdm_attestor);
    sizes.responder_config = sizeof(struct spdm_responder_config);
    sizes.requester_config = sizeof(struct spdm_requester_config);
    sizes.known = sizeof(struct spdm_known);
    sizes.block = sizeof(struct spdm_block);
    sizes.told = sizeof(struct spdm_told);
    sizes.session = sizeof(struct spdm_session);
    sizes.message = sizeof(struct spdm_message);
    sizes.watch = sizeof(struct spdm_watch);
    sizes.change = sizeof(struct spdm_change);
    sizes.verdict = sizeof(struct spdm_verdict);
    return spdm_sizes_fit(&sizes);
}

/* ---- A responder ------------------------------------------------------------------------------------------------- */

/*
 * Opens a responder that knows these requesters, at most eight, and has these measurements. Takes memory: all that
 * the end will ever have, and for a moment that of copies of hints and measurements.
 *
 * SPDM_OPEN: it is open. Then in this order, the first that holds: SPDM_BAD_EID, SPDM_BAD_PSK, SPDM_BAD_ALGORITHMS,
 * SPDM_BAD_BOOT; SPDM_TOO_MANY_REQUESTERS, SPDM_SAME_EID, SPDM_SAME_PSK, SPDM_SIZE_RANGE, SPDM_BLOCK_INDEX,
 * SPDM_BLOCK_INDEX_TAKEN, SPDM_BLOCKS_TOO_LONG. SPDM_MEMORY may come in place of one of the second group, and never
 * of one of the first.
 */
uint32_t spdm_responder_open(struct spdm_responder *responder, const struct spdm_responder_config *config,
                             const struct spdm_known *known, size_t known_count, const struct spdm_block *blocks,
                             size_t block_count);

/*
 * Gives it a packet of MCTP: the transport header and the payload, without what a link puts round them. What it led
 * to is written to `told`. The packets that it sends next replace those before: take them (spdm_responder_packet)
 * before the next packet is given. Any bytes may be given.
 */
uint32_t spdm_responder_on_packet(struct spdm_responder *responder, const uint8_t *packet, size_t packet_len,
                                  struct spdm_told *told);

/*
 * Writes packet `index`, from 0, of those that it sends next, and its length. A packet has at most 4 bytes more than
 * the unit. SPDM_NONE: there are no more. SPDM_ROOM: `len` is the length that is needed, and `room` is as it was.
 * Nothing is written behind the packet.
 */
uint32_t spdm_responder_packet(struct spdm_responder *responder, size_t index, uint8_t *room, size_t room_len,
                               size_t *len);

/*
 * Queues application data, at most 1,024 bytes, for the requester with this endpoint ID: each message of application
 * data that it sends is answered with the first in its queue, and with no bytes where the queue is empty.
 * SPDM_BAD_EID, then SPDM_UNKNOWN_PEER, SPDM_REPLY_TOO_LONG, SPDM_REPLY_FULL.
 */
uint32_t spdm_responder_queue(struct spdm_responder *responder, uint8_t eid, const uint8_t *bytes, size_t bytes_len);

/*
 * Tells the application message that spdm_responder_on_packet would take from this packet (SPDM_TAKEN) if it were given
 * it now: who sends it is written to `message`, and its data, at most 1,024 bytes, to `room`, with their length.
 * Nothing of the responder changes, so a caller can queue the answer and then give the packet, which is answered with
 * it where nothing else waits. SPDM_NONE: it would take none, since the packet brings no message, or one that came
 * before. SPDM_ROOM: `len` is the length that is needed, and `room` and `message` are as they were.
 */
uint32_t spdm_responder_peek(struct spdm_responder *responder, const uint8_t *packet, size_t packet_len,
                             struct spdm_message *message, uint8_t *room, size_t room_len, size_t *len);

/* Tells it that seconds have passed: a session in which no new record opened for twice the HeartbeatPeriod is gone. */
uint32_t spdm_responder_tick(struct spdm_responder *responder, uint32_t seconds);

/*
 * Gives up the connection with the requester of this endpoint ID, all its sessions and its unfinished message, where the
 * caller knows that the requester is gone: exactly what GET_VERSION from there does, and it counts as one packet. None of
 * the records of those sessions opens any more; the requester negotiates anew when it comes back. Connections with other
 * requesters go on, and what was queued for this one stays queued. SPDM_BAD_EID, then SPDM_WORN, SPDM_UNKNOWN_PEER.
 *
 * Nothing is to be sent then. After SPDM_OK, SPDM_WORN and SPDM_UNKNOWN_PEER no packets are left of those that it was to
 * send: take them before.
 */
uint32_t spdm_responder_reset(struct spdm_responder *responder, uint8_t eid);

/* Writes how far the connection with this requester has come, of enum spdm_phase. SPDM_BAD_EID, SPDM_UNKNOWN_PEER. */
uint32_t spdm_responder_phase(struct spdm_responder *responder, uint8_t eid, uint32_t *phase);

/*
 * Writes session `index`, from 0, of those with this requester, by rising RspSessionID. SPDM_BAD_EID. SPDM_NONE:
 * there are no more, or no requester has this endpoint ID.
 */
uint32_t spdm_responder_session(struct spdm_responder *responder, uint8_t eid, size_t index,
                                struct spdm_session *session);

/*
 * Writes the application data that came last, over all requesters, and its length: at most 1,024 bytes; none before
 * the first came. SPDM_ROOM as for a packet.
 */
uint32_t spdm_responder_data(struct spdm_responder *responder, uint8_t *room, size_t room_len, size_t *len);

/*
 * Writes what became of the sessions with this requester since `watch` was left by the call before, by rising
 * RspSessionID from 1 to 4, and leaves it with the sessions as they stand now; a watch of zeros has none. Called after
 * each packet from the requester, each tick and each reset it misses nothing but this: a handshake in whose place
 * another one with the same two IDs began is not told apart from it. The responder keeps nothing for it: each requester
 * has a watch of its own, and so has each part of a program that asks. SPDM_BAD_EID, SPDM_UNKNOWN_PEER.
 */
uint32_t spdm_responder_changes(struct spdm_responder *responder, uint8_t eid, struct spdm_watch *watch,
                                struct spdm_change changes[4]);

/* Closes it, and gives its memory back. One that is not open stays so. It may be opened again. */
void spdm_responder_close(struct spdm_responder *responder);

/* ---- A requester ------------------------------------------------------------------------------------------------- */

/*
 * Opens a requester. Takes memory: all that the end will ever have.
 *
 * SPDM_OPEN: it is open. Then in this order, the first that holds: SPDM_BAD_EID, SPDM_BAD_PSK, SPDM_BAD_ALGORITHMS,
 * SPDM_BAD_BOOT; SPDM_SAME_EID, SPDM_SIZE_RANGE. SPDM_MEMORY comes only where none of these holds.
 */
uint32_t spdm_requester_open(struct spdm_requester *requester, const struct spdm_requester_config *config);

/* Commands. A session is named by its ReqSessionID, the low half of its ID, from 1 to 4. */
enum spdm_command {
    SPDM_CONNECT = 1,      /* negotiate again, which ends all sessions */
    SPDM_OPEN_SESSION = 2, /* number: the kind of measurement summary, 0, 1 or 255 */
    SPDM_SEND = 3,         /* session, bytes: application data */
    SPDM_BEAT = 4,         /* session: HEARTBEAT */
    SPDM_UPDATE = 5,       /* session; number 0: the request key, else all keys */
    SPDM_MEASURE = 6,      /* session, or 0 for measurements in the clear; number: the operation */
    SPDM_END = 7,          /* session */
    SPDM_RETRY = 8         /* send the outstanding message again */
};

/*
 * Runs a command. What it does not use of `session`, `number` and `bytes` is not looked at. The packets that the
 * requester sends next replace those before. The outcome comes with a later packet, as SPDM_REQ_DONE or another end
 * of it; one command is outstanding at a time. SPDM_BAD_COMMAND, then SPDM_WORN to SPDM_TOO_LONG.
 */
uint32_t spdm_requester_command(struct spdm_requester *requester, uint32_t command, uint8_t session, uint8_t number,
                                const uint8_t *bytes, size_t bytes_len);

/* Gives it a packet, as spdm_responder_on_packet. */
uint32_t spdm_requester_on_packet(struct spdm_requester *requester, const uint8_t *packet, size_t packet_len,
                                  struct spdm_told *told);

/* Writes a packet that it sends next, as spdm_responder_packet. */
uint32_t spdm_requester_packet(struct spdm_requester *requester, size_t index, uint8_t *room, size_t room_len,
                               size_t *len);

/* Writes how far the negotiation has come, of enum spdm_phase. */
uint32_t spdm_requester_phase(struct spdm_requester *requester, uint32_t *phase);

/*
 * Writes session `index`, from 0, of those whose PSK_EXCHANGE_RSP was accepted, by rising ReqSessionID. SPDM_NONE:
 * there are no more.
 */
uint32_t spdm_requester_session(struct spdm_requester *requester, size_t index, struct spdm_session *session);

/*
 * Writes the application data or the measurement record that came last, and its length: at most 4,096 bytes; none
 * before the first came. SPDM_ROOM as for a packet.
 */
uint32_t spdm_requester_data(struct spdm_requester *requester, uint8_t *room, size_t room_len, size_t *len);

/*
 * Writes what PSK_EXCHANGE_RSP told of the session with this ReqSessionID (the low half of `id` of struct spdm_session),
 * from the answer on as long as there is a session: the HeartbeatPeriod in seconds, 0 for no heartbeat; the measurement
 * summary, 32 or 48 bytes where SPDM_OPEN asked for one and else none; the opaque data of the responder, at most 1,024
 * bytes. SPDM_NONE: no session with this id was accepted. SPDM_ROOM as for a packet.
 */
uint32_t spdm_requester_period(struct spdm_requester *requester, uint16_t req_id, uint32_t *period);

uint32_t spdm_requester_summary(struct spdm_requester *requester, uint16_t req_id, uint8_t *room, size_t room_len,
                                size_t *len);

uint32_t spdm_requester_opaque(struct spdm_requester *requester, uint16_t req_id, uint8_t *room, size_t room_len,
                               size_t *len);

/* Closes it, and gives its memory back. One that is not open stays so. It may be opened again. */
void spdm_requester_close(struct spdm_requester *requester);

/* ---- An attestor ------------------------------------------------------------------------------------------------- */

/*
 * Opens an attestor: a requester of this configuration, and the text of a policy (docs/FORMATS.md, "Policies"), its
 * lines up to `go`. Takes memory: all that it will ever have, and for a moment that of a copy of the policy.
 *
 * SPDM_OPEN: it is open. Then as spdm_requester_open, but for memory; then SPDM_BAD_POLICY. SPDM_MEMORY may come in
 * place of SPDM_BAD_POLICY, and never of one of those before.
 */
uint32_t spdm_attestor_open(struct spdm_attestor *attestor, const struct spdm_requester_config *config,
                            const uint8_t *policy, size_t policy_len);

/* Has it send its first request. Called once, before the calls below. */
uint32_t spdm_attestor_start(struct spdm_attestor *attestor);

/*
 * Gives it a packet, as spdm_requester_on_packet. `verdict` is what is decided at this packet: one alone of all packets
 * has another kind than SPDM_VERDICT_GOING. The packets that it sends next replace those before; the session is ended
 * with them once the record came, and none are sent after SPDM_VERDICT_FAILED.
 */
uint32_t spdm_attestor_on_packet(struct spdm_attestor *attestor, const uint8_t *packet, size_t packet_len,
                                 struct spdm_verdict *verdict);

/* Tells it that no answer came in time: the outstanding request, if there is one, is sent again. */
uint32_t spdm_attestor_on_time(struct spdm_attestor *attestor);

/* Writes a packet that it sends next, as spdm_responder_packet. */
uint32_t spdm_attestor_packet(struct spdm_attestor *attestor, size_t index, uint8_t *room, size_t room_len,
                              size_t *len);

/* Closes it, and gives its memory back. One that is not open stays so. It may be opened again. */
void spdm_attestor_close(struct spdm_attestor *attestor);

/* ---- Boot numbers ------------------------------------------------------------------------------------------------ */

/*
 * The next boot number of a device of 18 bytes, which are zeros at first: one more than the greatest valid number in
 * them, from 1 to 2^24 - 2, and the bytes with that number in them. They are two slots of nine bytes, each a number
 * of eight bytes, the lowest first, and a gate byte, 1 where the number is valid; one slot is changed.
 *
 * The number must not be used before the changed slot is stored: first its gate byte as 0, then the eight bytes of
 * its number, then its gate byte as 1, each write whole before the next begins. Then no number comes twice, whenever
 * power is lost. SPDM_BOOTS_SPENT: all numbers were used, and nothing is written. Any 18 bytes may be given.
 */
uint32_t spdm_next_boot(uint8_t device[18], uint32_t *boot);

/* ---- Memory ------------------------------------------------------------------------------------------------------ */

/*
 * The most memory that opening an end takes at any time, in bytes: of a responder with so many requesters and blocks,
 * whose hints and values have `bytes` bytes together with the opaque data; of a requester, whose hint and opaque data
 * have `bytes` bytes together; of an attestor over such a requester, with a policy of so many rules, whose values have
 * `values` bytes together. What the three functions below add to a block themselves is not in it.
 */
size_t spdm_responder_size(size_t requesters, size_t blocks, size_t bytes);

size_t spdm_requester_size(size_t bytes);

size_t spdm_attestor_size(size_t bytes, size_t rules, size_t values);

/*
 * The caller links these three functions; examples/c/heap.c has them over malloc, and over a pool of fixed size.
 * `align` is a power of two, at most 16. A refused request has is_some 0. rattle_realloc keeps the bytes of the
 * block, and where it refuses the block stays. Besides these the library needs memcpy, memmove, memset and memcmp,
 * and nothing else.
 */
struct rattle_block {
    uint64_t is_some;
    void *at;
};

struct rattle_block rattle_alloc(size_t size, size_t align);
struct rattle_block rattle_realloc(void *block, size_t old_size, size_t size, size_t align);
void rattle_dealloc(void *block);

#ifdef __cplusplus
}
#endif

#endif
