/* zolvortug.h: a proved block store for clock recorders.
 *
 * A channel of a recorder is a client, 0 to 63. It stores blocks of 528 bytes in an image, is given an id for each,
 * and lists its ids by a walk, which names every block that stands throughout exactly once, whatever falls between its
 * steps.
 *
 * Memory is the caller's. The image and every buffer are lent for one call and not kept; nothing is allocated, and
 * nothing is called but memset and memmove. While a call changes an image, no other call may use it; calls that only
 * read it may overlap in time. What one call is lent to read and what it is lent to write must not overlap in memory. A
 * length of 0 allows any pointer, NULL too.
 *
 * No bytes, numbers or lengths are forbidden. Every call ends with a report, Check's with yes or no, and a step of a
 * reader with a phase, a gap or the end. A refused call changes no byte of the image or of a buffer; a refused
 * operation costs the error price, and Format, Check and readers are free. All of this is proved; docs/PROMISES.md says
 * where. docs/MANUAL.md says more of all that follows.
 *
 * Link libzolvortug.a, which `tools/make-library` writes to target/staticlib. It is for x86-64 Linux. */
#ifndef ZOLVORTUG_H
#define ZOLVORTUG_H

#include <stdbool.h>
#include <stddef.h>
#include <stdint.h>

#ifdef __cplusplus
extern "C" {
#endif

#define ZOLVORTUG_BLOCK 528u          /* bytes of a service block: a tag of 16, then 512 of data */
#define ZOLVORTUG_MOST 64u            /* ids a step, and entries a call, at most */
#define ZOLVORTUG_PROFILE_ROOM 1536u  /* bytes that Profile asks for: 64 entries of 24 */
#define ZOLVORTUG_START_KEY 0u
#define ZOLVORTUG_END_KEY 65535u
#define ZOLVORTUG_SAMPLES 128u        /* samples that a block of a series has room for */
#define ZOLVORTUG_SEQUENCES 4096u     /* sequences of a series are below this */
#define ZOLVORTUG_LARGEST 1048576     /* picoseconds, 2^20: a phase is from minus this to this */
#define ZOLVORTUG_NOT_TAKEN INT32_MIN /* -2^31: the mark of a sample that was not taken */

/* How a call ended, in the order in which the reasons are tested. */
enum zolvortug_report {
    ZOLVORTUG_SUCCESS = 0,
    ZOLVORTUG_BAD_IMAGE = 1,       /* the image's length or its trailer is wrong */
    ZOLVORTUG_BAD_USER = 2,        /* client above 63 */
    ZOLVORTUG_BAD_TIME = 3,        /* a time is not from 1 to 2^40 - 1 (an expiry of 0 is allowed) */
    ZOLVORTUG_CLOCK_NOT_LATER = 4, /* now is not above the image's clock */
    ZOLVORTUG_NOT_MANAGER = 5,     /* Scavenge and Profile are client 0's */
    ZOLVORTUG_BAD_KEY = 6,         /* the key is not below the number of blocks */
    ZOLVORTUG_BAD_COUNT = 7,       /* the count is 0 or above 64 */
    ZOLVORTUG_BAD_ROOM = 8,        /* a buffer is too small, or not of 528 bytes */
    ZOLVORTUG_DAMAGED = 9,         /* a header or a count that the call looked at is damaged */
    ZOLVORTUG_NO_SUCH_BLOCK = 10,  /* no stored block has this id */
    ZOLVORTUG_NOT_OWNER = 11,      /* the block is another client's */
    ZOLVORTUG_NO_SPACE = 12,       /* no block is free */
    ZOLVORTUG_NO_SERIES = 13,      /* no block of the client belongs to the series */
    ZOLVORTUG_BAD_TAG = 14,        /* a tag or a sample of the series breaks its rules */
    ZOLVORTUG_SEQUENCE_TWICE = 15  /* two blocks of the series have one sequence */
};

/* Ten prices, the error price, and the rate of a block for a tick. */
typedef struct zolvortug_tariff {
    uint32_t create;
    uint32_t read;
    uint32_t status;
    uint32_t destroy;
    uint32_t replace;
    uint32_t setexpiry;
    uint32_t getids;
    uint32_t getcount;
    uint32_t scavenge;
    uint32_t profile;
    uint32_t error;
    uint16_t rate;
} zolvortug_tariff;

/* Answers, by value. A charge is negative where money is given back. On a refusal all is 0 but the report, the charge,
 * which is the error price, and a key or a walk, which is the one received. */
typedef struct zolvortug_created { /* Create, Replace */
    uint64_t id;
    int64_t charge;
    uint8_t report;
} zolvortug_created;

typedef struct zolvortug_done { /* Read, Destroy, SetExpiry */
    int64_t charge;
    uint8_t report;
} zolvortug_done;

typedef struct zolvortug_told { /* Status */
    uint64_t created;
    uint64_t expires;
    int64_t charge;
    uint32_t owner;
    uint8_t report;
} zolvortug_told;

typedef struct zolvortug_counted { /* GetCount */
    int64_t charge;
    uint32_t count;
    uint8_t report;
} zolvortug_counted;

typedef struct zolvortug_listed { /* GetIds, Profile: the key to go on with, and how many entries were written */
    int64_t charge;
    uint32_t key;
    uint32_t entries;
    uint8_t report;
} zolvortug_listed;

typedef struct zolvortug_scavenged { /* Scavenge: the key to go on with, and how many blocks were removed */
    int64_t charge;
    uint32_t key;
    uint32_t count;
    uint8_t report;
} zolvortug_scavenged;

/* A walk over a client's ids, kept by its caller. Make one by zolvortug_walk_from, and take steps until it has ended or
 * one is refused. One that was kept as bytes has 0 or 1 in `ended`, as every bool of C. */
typedef struct zolvortug_walk {
    uint32_t client;
    uint32_t count;
    uint32_t key;
    bool ended;
} zolvortug_walk;

typedef struct zolvortug_stepped { /* a step: the record after it, and the rest as GetIds */
    zolvortug_walk walk;
    int64_t charge;
    uint32_t key;
    uint32_t entries;
    uint8_t report;
} zolvortug_stepped;

/* A series is a channel's samples in order. A block belongs to a series of its owner if its tag begins with the number
 * of the series; a store keeps any other block too. Such a block must be, low byte first:
 *
 *     tag    at 0   series, 4 bytes
 *            at 4   sequence, 4 bytes: below 4,096, and no other block of the series has it
 *            at 8   number of samples, 1 byte: 1 to 128
 *            at 9   zeros, 7 bytes
 *     data   at 16  128 samples of 4 bytes, signed: each from -2^20 to 2^20 picoseconds, or ZOLVORTUG_NOT_TAKEN where
 *                   none was taken; the slots after the last sample, from the number of samples on, hold that too
 *
 * Sample i of sequence q has place 128 * q + i. A reader gives every place from 0 to the last of the highest sequence,
 * as a phase or as a gap: 128 gaps where no block has the sequence. */

/* Where a reader stands, kept by its caller. Open one by zolvortug_series_open, change no field, and lend each step the
 * image that it was opened on, unchanged. */
typedef struct zolvortug_place {
    uint32_t n;
    uint32_t client;
    uint32_t series;
    uint32_t block;
    uint32_t sequence;
    uint32_t slot;
    uint32_t at;  /* the next place */
    uint32_t end; /* the number of places: 128 * q + 128, q the highest sequence */
    uint32_t report;
} zolvortug_place;

/* What a step of a reader answers. */
enum zolvortug_answer {
    ZOLVORTUG_ENDED = 0, /* there are no more places, or the opening was refused */
    ZOLVORTUG_PHASE = 1, /* a sample was taken: its phase */
    ZOLVORTUG_GAP = 2    /* none was taken, or no block has this sequence */
};

typedef struct zolvortug_sampled { /* a step of a reader */
    double phase;                  /* picoseconds, exactly the stored number; not a number at a gap and at the end */
    uint8_t answer;
} zolvortug_sampled;

/* The bytes of an image of n blocks, n a multiple of 8 from 8 to 4,096; 0 for any other n. */
size_t zolvortug_size(uint32_t n);

/* Makes a fresh image of n blocks; refused with ZOLVORTUG_BAD_IMAGE where n or the length is not right. Check: whether
 * an image is sound. */
uint8_t zolvortug_format(uint32_t n, uint8_t *img, size_t img_len);
bool zolvortug_check(const uint8_t *img, size_t img_len);

/* The operations. Inputs stand in PRG-62's order, then the time, which is now in ticks of 1 ms, then the image. */

/* Stores 528 bytes until the later of now and the expiry. */
zolvortug_created zolvortug_create(zolvortug_tariff t, uint32_t client, uint64_t expiry,
                                   const uint8_t *bytes, size_t bytes_len, uint64_t time,
                                   uint8_t *img, size_t img_len);

/* The 528 bytes of a block, to the buffer. */
zolvortug_done zolvortug_read(zolvortug_tariff t, uint32_t client, uint64_t id,
                              uint8_t *buffer, size_t buffer_len, const uint8_t *img, size_t img_len);

zolvortug_told zolvortug_status(zolvortug_tariff t, uint32_t client, uint64_t id,
                                const uint8_t *img, size_t img_len);

zolvortug_done zolvortug_destroy(zolvortug_tariff t, uint32_t client, uint64_t id, uint64_t time,
                                 uint8_t *img, size_t img_len);

/* Puts 528 other bytes in the block's place, under a new id; its expiry stays. */
zolvortug_created zolvortug_replace(zolvortug_tariff t, uint32_t client, uint64_t id,
                                    const uint8_t *bytes, size_t bytes_len, uint64_t time,
                                    uint8_t *img, size_t img_len);

/* The block expires at the later of now and the asked expiry. */
zolvortug_done zolvortug_set_expiry(zolvortug_tariff t, uint32_t client, uint64_t id, uint64_t expiry,
                                    uint64_t time, uint8_t *img, size_t img_len);

/* How many blocks the client owns. */
zolvortug_counted zolvortug_get_count(zolvortug_tariff t, uint32_t client, const uint8_t *img, size_t img_len);

/* One call of a listing: at most count ids of the client's blocks from the key upward, of at most 64 block numbers a
 * call, 8 bytes each, low byte first. Return the key that it gives until that is ZOLVORTUG_END_KEY. A call may name
 * none and not be the last. */
zolvortug_listed zolvortug_get_ids(zolvortug_tariff t, uint32_t client, uint32_t key, uint32_t count,
                                   uint8_t *ids, size_t ids_len, const uint8_t *img, size_t img_len);

/* Client 0's: removes the blocks from the key upward whose expiry is before now, of at most 64 block numbers a call. */
zolvortug_scavenged zolvortug_scavenge(zolvortug_tariff t, uint32_t client, uint32_t key, uint64_t time,
                                       uint8_t *img, size_t img_len);

/* Client 0's: owner, created and expires, 8 bytes each, of the used blocks from the key upward, of at most 64 block
 * numbers a call. */
zolvortug_listed zolvortug_profile(zolvortug_tariff t, uint32_t client, uint32_t key,
                                   uint8_t *buffer, size_t buffer_len, const uint8_t *img, size_t img_len);

/* A walk from the start, with so many ids a step at most; and a step of it, by value. */
zolvortug_walk zolvortug_walk_from(uint32_t client, uint32_t count);
zolvortug_stepped zolvortug_step(zolvortug_tariff t, zolvortug_walk w, uint8_t *ids, size_t ids_len,
                                 const uint8_t *img, size_t img_len);

/* A step that updates the record where it stands. A refused step leaves it as it was; a step on an ended walk names
 * nothing and is free. */
static inline zolvortug_stepped zolvortug_walk_step(zolvortug_tariff t, zolvortug_walk *w, uint8_t *ids, size_t ids_len,
                                                    const uint8_t *img, size_t img_len)
{
    zolvortug_stepped s = zolvortug_step(t, *w, ids, ids_len, img, img_len);
    *w = s.walk;
    return s;
}

/* Opens a reader on a client's series, before its first place. Free; it may be refused with ZOLVORTUG_BAD_IMAGE,
 * ZOLVORTUG_BAD_USER, ZOLVORTUG_DAMAGED (any header of the image), ZOLVORTUG_NO_SERIES, ZOLVORTUG_BAD_TAG or
 * ZOLVORTUG_SEQUENCE_TWICE, and then all is 0 but the report. */
zolvortug_place zolvortug_series_open(uint32_t client, uint32_t series, const uint8_t *img, size_t img_len);

/* A step of a reader: what stands at the next place. The nine words of its place are updated where they stand. Free. At
 * the end, after a refused opening, where the image is too short for the sample, and where the words are not nine, it
 * answers ZOLVORTUG_ENDED and leaves them as they were. */
zolvortug_sampled zolvortug_series_step(uint32_t *p, size_t p_len, const uint8_t *img, size_t img_len);

/* The same, by the record. */
static inline zolvortug_sampled zolvortug_place_step(zolvortug_place *p, const uint8_t *img, size_t img_len)
{
    return zolvortug_series_step((uint32_t *)p, sizeof *p / sizeof(uint32_t), img, img_len);
}

#ifdef __cplusplus
}
#endif
#endif
