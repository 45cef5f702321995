/* The calls of Bellmantle for a program in C, or in any language that can call C. docs/RULES.md says what each call means.
 *
 * Every call takes any numbers and words, ends, and returns 0 or the number of its refusal, one of BELLMANTLE_REFUSED_* below. On a
 * refusal no word that was lent is changed, those lent for the answer included, and no draw is used. Two calls return more than a
 * number: bellmantle_parse_script, whose refusals bellmantle_refused_* take apart, and bellmantle_network_tick, whose refusals tell a
 * place too.
 *
 * Who may hold what: a call reads and writes only what it is lent, keeps nothing when it returns, and takes no memory of its own but
 * the stack (at most 192 KiB, in bellmantle_parse_script). A pointer must be of words that the caller owns and that nobody else
 * reads or writes during the call; no two of a call's pointers may overlap, and a pointer must not be NULL, be its length 0 or not.
 * Where a length stands behind a pointer it counts elements. Where the length stands in brackets it is fixed: so many words must be
 * there, and nothing can test that. Calls on different words may run at the same time.
 */
#ifndef BELLMANTLE_H
#define BELLMANTLE_H

#include <stddef.h>
#include <stdint.h>

#ifdef __cplusplus
extern "C" {
#endif

/* ---- Refusals */

enum bellmantle_refusal {
    /* fault scripts, with a line */
    BELLMANTLE_REFUSED_TOO_LONG = 1,       /* the text is over 65,536 bytes (line 0) */
    BELLMANTLE_REFUSED_BAD_BYTE = 2,       /* a byte over 127 before the #, or a comment that is no UTF-8 */
    BELLMANTLE_REFUSED_ONE_WORD = 3,       /* only one word on the line */
    BELLMANTLE_REFUSED_BAD_TICK = 4,       /* the tick is no number: why and at which byte is told */
    BELLMANTLE_REFUSED_UNKNOWN_FAULT = 5,  /* no such fault; a fault's number over 5 */
    BELLMANTLE_REFUSED_MISSING_ID = 6,     /* the fault needs a plant's id */
    BELLMANTLE_REFUSED_BAD_ID = 7,         /* the id is no number, told likewise */
    BELLMANTLE_REFUSED_NO_ROOM = 8,        /* more events than words were lent for */
    /* the network */
    BELLMANTLE_REFUSED_BAD_LOSS = 20,      /* the loss probability is not from 0 to 1 */
    BELLMANTLE_REFUSED_BAD_REPLAY = 21,    /* the replay probability is not from 0 to 1 */
    BELLMANTLE_REFUSED_MIN_OVER_MEAN = 22, /* the minimum delay is over the mean */
    BELLMANTLE_REFUSED_ILL_FORMED = 23,    /* the words are no well-formed network */
    BELLMANTLE_REFUSED_BAD_MESSAGE = 24,   /* a kind over 10 or a sender's sort over 1 */
    BELLMANTLE_REFUSED_SENT_LIMIT = 25,    /* 2^62 messages were sent */
    BELLMANTLE_REFUSED_SHORT_DRAWS = 26,   /* too few draws */
    BELLMANTLE_REFUSED_SHORT_EXTRAS = 27,  /* too few extras */
    BELLMANTLE_REFUSED_LATE_TICK = 28,     /* a message would be due after tick 2^64 - 1 */
    BELLMANTLE_REFUSED_FULL = 29,          /* more than 128 messages would be in flight */
    BELLMANTLE_REFUSED_SHORT_OUTPUT = 30,  /* the output is shorter than the records */
    /* the journal */
    BELLMANTLE_REFUSED_BAD_JOURNAL = 31,   /* a bad header, or a record that does not fit */
    BELLMANTLE_REFUSED_JOURNAL_FULL = 32,  /* no room for the record; under 2 words at a mark */
    BELLMANTLE_REFUSED_TOO_FAR = 33,       /* a rewind over more calls than the journal holds */
    /* the plants and the core */
    BELLMANTLE_REFUSED_PLANT_COUNT = 40,   /* not 3 to 15 plants */
    BELLMANTLE_REFUSED_UNKNOWN_PLANT = 41, /* an id that is not below n */
    BELLMANTLE_REFUSED_BAD_PLANTS = 42,    /* a flag that is neither 0 nor 1 or is set past n, or a count over 2^62 */
    BELLMANTLE_REFUSED_COUNT_LIMIT = 43,   /* a count would pass 2^62 */
    BELLMANTLE_REFUSED_NO_NONCE = 44,      /* a reboot without a draw */
    BELLMANTLE_REFUSED_BAD_FLAGS = 45,     /* the recovering flags are not n, or one is over 1 */
    BELLMANTLE_REFUSED_SHORT_PICKS = 46,   /* too few picks */
    BELLMANTLE_REFUSED_BAD_PICK = 47,      /* a pick out of its range */
    BELLMANTLE_REFUSED_FEW_HEALTHY = 48,   /* fewer healthy plants than a quorum */
    /* the properties */
    BELLMANTLE_REFUSED_BAD_SNAPSHOT = 60,  /* plants, logs, values or core of another shape */
    BELLMANTLE_REFUSED_BAD_TRACKER = 61    /* a tracker of another shape */
};

/* ---- Fault scripts */

/* Reads a fault script of `text_len` bytes. Each event is three of the lent words: tick, fault and id; only the events found are
 * written, by tick, those of one tick in file order. Returns how many they are, fewer than 2^56, or a refusal, packed into the word,
 * since a refusal writes nothing that was lent: its number times 2^56, why times 2^48, the byte times 2^24, and its line. */
enum bellmantle_fault {
    BELLMANTLE_CRASH = 0,
    BELLMANTLE_RESTART = 1,
    BELLMANTLE_REBOOT = 2,
    BELLMANTLE_PARTITION = 3,
    BELLMANTLE_HEAL = 4,
    BELLMANTLE_HEAL_ALL = 5 /* its id is 0 */
};

uint64_t bellmantle_parse_script(const uint8_t *text, size_t text_len, uint64_t *events, size_t events_len);

/* Why a word is no number. The earliest reason wins. */
enum bellmantle_why {
    BELLMANTLE_WHY_NO_DIGIT = 1,   /* it ends where a digit must stand */
    BELLMANTLE_WHY_STRAY_BYTE = 2, /* a byte that is no digit, such as the comma of 1,500 */
    BELLMANTLE_WHY_TOO_LARGE = 3   /* with this digit it passes 2^64 - 1 */
};

/* What bellmantle_parse_script returned, taken apart. The refusal's number; 0 if the script was read, and then the word is the count of
 * events. */
static inline uint64_t bellmantle_refused_number(uint64_t returned) { return returned >> 56; }

/* The refusal's line, counted from 1; 0 for a text that is too long. */
static inline uint64_t bellmantle_refused_line(uint64_t returned) { return returned & 0xffffff; }

/* For a bad tick and a bad id: one of BELLMANTLE_WHY_*, and at which byte of the word, counted from 0. For other refusals 0. */
static inline uint64_t bellmantle_refused_why(uint64_t returned) { return returned >> 48 & 0xff; }

static inline uint64_t bellmantle_refused_byte(uint64_t returned) { return returned >> 24 & 0xffffff; }

/* ---- The network
 *
 * A network is two rows of words, which the host keeps and lends. */

/* Its head: where each word stands. */
enum bellmantle_head {
    BELLMANTLE_HEAD_LOSS = 0,      /* the bits of the loss probability, an IEEE 754 double */
    BELLMANTLE_HEAD_REPLAY = 1,    /* the bits of the replay probability */
    BELLMANTLE_HEAD_MIN = 2,       /* minimum delay */
    BELLMANTLE_HEAD_MEAN = 3,      /* mean delay */
    BELLMANTLE_HEAD_FLAG = 4,      /* whether client messages are faulted: 0 or 1 */
    BELLMANTLE_HEAD_PENDING = 5,   /* messages in flight */
    BELLMANTLE_HEAD_SEQ = 6,       /* the number of the last copy queued */
    BELLMANTLE_HEAD_SENT = 7,
    BELLMANTLE_HEAD_DELIVERED = 8,
    BELLMANTLE_HEAD_LOST = 9,
    BELLMANTLE_HEAD_REPLAYED = 10,
    BELLMANTLE_HEAD_DELAYED = 11,
    BELLMANTLE_HEAD_WORDS = 12
};

/* Its records: eight words for each message in flight, in the order of delivery, and zeros behind them. */
enum bellmantle_record {
    BELLMANTLE_RECORD_DUE = 0,
    BELLMANTLE_RECORD_SEQ = 1,
    BELLMANTLE_RECORD_SENT_AT = 2,
    BELLMANTLE_RECORD_SORT = 3,   /* of the sender: 0 a replica, 1 a client */
    BELLMANTLE_RECORD_ORIGIN = 4, /* the sender's id */
    BELLMANTLE_RECORD_TO = 5,
    BELLMANTLE_RECORD_KIND = 6,   /* 0 to 10; 0 is a Request */
    BELLMANTLE_RECORD_HANDLE = 7, /* names a body that the host keeps */
    BELLMANTLE_RECORD_WORDS = 8,
    BELLMANTLE_CAPACITY = 128,
    BELLMANTLE_RECORDS_WORDS = 1024
};

/* A fresh network of these options: 20, 21, 22. The flag is no for 0 and yes otherwise. All words are written. */
uint64_t bellmantle_network_new(uint64_t head[12], uint64_t records[1024], uint64_t loss_bits, uint64_t replay_bits, uint64_t min,
                                uint64_t mean, uint64_t flag);

/* Other options: 23, 20, 21, 22. */
uint64_t bellmantle_network_set_options(uint64_t head[12], const uint64_t records[1024], uint64_t loss_bits, uint64_t replay_bits,
                                        uint64_t min, uint64_t mean, uint64_t flag);

/* A message sent at tick `now`: 23 to 29. Told: whether it was lost (0 or 1), whether it was replayed, how many draws and how many
 * extras were used, from each list's front. */
uint64_t bellmantle_network_send(uint64_t head[12], uint64_t records[1024], uint64_t now, uint64_t sort, uint64_t origin, uint64_t to,
                                 uint64_t kind, uint64_t handle, const uint64_t *draws, size_t draws_len, const uint64_t *extras,
                                 size_t extras_len, uint64_t told[4]);

/* What bellmantle_fate tells: whether the message is lost (0 or 1), whether it is replayed, how many draws and how many extras are used,
 * from each list's front, and the ticks at which the copy and the original are due, each 0 where there is none. */
enum bellmantle_fate_told {
    BELLMANTLE_FATE_LOST = 0,
    BELLMANTLE_FATE_REPLAYED = 1,
    BELLMANTLE_FATE_DRAWS = 2,
    BELLMANTLE_FATE_EXTRAS = 3,
    BELLMANTLE_FATE_COPY_DUE = 4,
    BELLMANTLE_FATE_ORIGINAL_DUE = 5,
    BELLMANTLE_FATE_WORDS = 6
};

/* What becomes of a message of a kind that is sent at tick `now` under these options, with no network at hand: 20, 21, 22, 24, 26, 27, 28.
 * A send of such a message on a network with these options decides the same. */
uint64_t bellmantle_fate(uint64_t loss_bits, uint64_t replay_bits, uint64_t min, uint64_t mean, uint64_t flag, uint64_t now,
                         uint64_t kind, const uint64_t *draws, size_t draws_len, const uint64_t *extras, size_t extras_len,
                         uint64_t told[6]);

/* Takes every message due at tick `now` to the front of the output, in the order of delivery: 23, 30. Told: how many. */
uint64_t bellmantle_network_take_due(uint64_t head[12], uint64_t records[1024], uint64_t now, uint64_t *out, size_t out_len,
                                     uint64_t told[1]);

/* How many messages are in flight: 23. */
uint64_t bellmantle_network_pending(const uint64_t head[12], const uint64_t records[1024], uint64_t told[1]);

/* The messages in flight, to the front of the output, in the order of delivery: 23, 30. Told: how many. */
uint64_t bellmantle_network_in_flight(const uint64_t head[12], const uint64_t records[1024], uint64_t *out, size_t out_len,
                                      uint64_t told[1]);

/* A tick: sends one after the other, and then a take at tick `now`. A message is six words: the tick it is sent at, the sender's sort
 * and id, the receiver, kind and handle. Each send uses draws and extras behind those that the one before it used. Told: draws used,
 * extras used, records taken. It is the calls one after the other; if one of them is refused nothing is changed, and the answer is
 * that refusal's number times 2^32 and the call's place, counted from 0, the take's being the number of messages. 23 comes first, at
 * place 0; a list of more than 65,536 messages, or one that is no whole number of them, is 24 at the place of the first one over. */
enum { BELLMANTLE_MESSAGE_WORDS = 6, BELLMANTLE_TICK_MESSAGES = 65536 };

uint64_t bellmantle_network_tick(uint64_t head[12], uint64_t records[1024], const uint64_t *sends, size_t sends_len,
                                 const uint64_t *draws, size_t draws_len, const uint64_t *extras, size_t extras_len, uint64_t now,
                                 uint64_t *out, size_t out_len, uint64_t told[3]);

/* ---- The journal
 *
 * Lent words: word 0 is how many calls it holds, word 1 how many words are used, and behind them stand the records. Mark it before its
 * first use. */

/* Forgets the calls held: words 0 and 1 become 0 and 2. 32. */
uint64_t bellmantle_journal_mark(uint64_t *journal, size_t journal_len);

/* The plain call with its record: the plain call's refusals, then 31, 32. A send's record has 6 words, that of options 7, and that of a
 * take eight for each record taken and 2. */
uint64_t bellmantle_journal_send(uint64_t head[12], uint64_t records[1024], uint64_t now, uint64_t sort, uint64_t origin, uint64_t to,
                                 uint64_t kind, uint64_t handle, const uint64_t *draws, size_t draws_len, const uint64_t *extras,
                                 size_t extras_len, uint64_t *journal, size_t journal_len, uint64_t told[4]);

uint64_t bellmantle_journal_take_due(uint64_t head[12], uint64_t records[1024], uint64_t now, uint64_t *out, size_t out_len,
                                     uint64_t *journal, size_t journal_len, uint64_t told[1]);

uint64_t bellmantle_journal_set_options(uint64_t head[12], const uint64_t records[1024], uint64_t loss_bits, uint64_t replay_bits,
                                        uint64_t min, uint64_t mean, uint64_t flag, uint64_t *journal, size_t journal_len);

/* Goes back over the last k calls held: 23, 31, 33, 31. */
uint64_t bellmantle_journal_rewind(uint64_t head[12], uint64_t records[1024], uint64_t k, uint64_t *journal, size_t journal_len);

/* ---- Plants and core */

/* A state of plants: where each word stands. */
enum bellmantle_plants {
    BELLMANTLE_PLANTS_N = 0,            /* how many plants */
    BELLMANTLE_PLANTS_UP = 1,           /* 15 flags: whether each runs, 0 or 1 */
    BELLMANTLE_PLANTS_PARTITIONED = 16, /* 15 flags: whether each is cut off */
    BELLMANTLE_PLANTS_STABLE = 31,      /* 15 ticks until which each is stable */
    BELLMANTLE_PLANTS_CRASHES = 46,
    BELLMANTLE_PLANTS_RESTARTS = 47,
    BELLMANTLE_PLANTS_REBOOTS = 48,
    BELLMANTLE_PLANTS_WORDS = 49,
    BELLMANTLE_MOST_PLANTS = 15
};

/* Fresh plants: all n up, none partitioned, nothing counted. 40. */
uint64_t bellmantle_plants_new(uint64_t n, uint64_t words[49]);

/* A fault at a tick: 5 for a fault over 5, then 40, 42, 41, 43, 44. A reboot uses the first draw, which is its nonce and is told; for
 * any other fault the nonce's word stays. */
uint64_t bellmantle_plants_apply(uint64_t words[49], uint64_t tick, uint64_t fault, uint64_t id, const uint64_t *draws,
                                 size_t draws_len, uint64_t nonce[1]);

/* What becomes of a message that is due: 24 for a sender's sort over 1, then 40, 42, 41. Told: 0 it is delivered, 1 the receiver is
 * down, 2 the receiver or a sending replica is partitioned. */
uint64_t bellmantle_plants_verdict(const uint64_t words[49], uint64_t sort, uint64_t id, uint64_t to, uint64_t told[1]);

/* What becomes of the messages of a take, BELLMANTLE_RECORD_WORDS words each as it gives them: 30 if there is not one for each word of
 * `told`; then, record by record, what the call above answers, and the first refusal is the answer; then 40, 42 of the state, where
 * there is no record. Told: for each the number that the call above tells. */
uint64_t bellmantle_plants_verdicts(const uint64_t words[49], const uint64_t *records, size_t records_len, uint64_t *told,
                                    size_t told_len);

/* Chooses the core: 40, 42, 45, 48, 46, 47, 43. `recovering` has a flag for each plant; `full` asks for all plants, no for 0 and yes
 * otherwise. Told: the core's size, how many picks were used, and its ids, rising, with zeros behind them. */
enum { BELLMANTLE_CORE_SIZE = 0, BELLMANTLE_CORE_PICKS = 1, BELLMANTLE_CORE_IDS = 2, BELLMANTLE_CORE_WORDS = 17 };

uint64_t bellmantle_plants_choose_core(uint64_t words[49], const uint64_t *recovering, size_t recovering_len, const uint64_t *picks,
                                       size_t picks_len, uint64_t full, uint64_t told[17]);

/* ---- Properties
 *
 * A snapshot of n plants is a row of plants and a row of logs; the tracker is a third row. */

/* The plants: where each word stands, of plant r from BELLMANTLE_SNAPSHOT_PLANT_WORDS * r on. */
enum bellmantle_snapshot_plant {
    BELLMANTLE_PLANT_RECOVERING = 0, /* 0 or 1 */
    BELLMANTLE_PLANT_COMMIT = 1,
    BELLMANTLE_PLANT_OP = 2,         /* op number */
    BELLMANTLE_PLANT_LOG_LENGTH = 3, /* entries in its log, BELLMANTLE_SNAPSHOT_ENTRIES at most */
    BELLMANTLE_SNAPSHOT_PLANT_WORDS = 4
};

/* An entry: where each word stands. In the logs that of plant r and index i is from BELLMANTLE_SNAPSHOT_LOG_WORDS * r +
 * BELLMANTLE_ENTRY_WORDS * i on. */
enum bellmantle_entry {
    BELLMANTLE_ENTRY_CLIENT = 0,
    BELLMANTLE_ENTRY_REQUEST = 1,
    BELLMANTLE_ENTRY_ID = 2,   /* op id */
    BELLMANTLE_ENTRY_BODY = 3, /* op body */
    BELLMANTLE_ENTRY_WORDS = 4,
    BELLMANTLE_SNAPSHOT_ENTRIES = 128,  /* room in a log */
    BELLMANTLE_SNAPSHOT_LOG_WORDS = 512 /* BELLMANTLE_SNAPSHOT_ENTRIES * BELLMANTLE_ENTRY_WORDS */
};

/* The tracker: where each part starts. Behind the last commits stand the canonical entries, that of index i from
 * BELLMANTLE_TRACKER_LAST_COMMITS + n + BELLMANTLE_ENTRY_WORDS * i on, and behind those BELLMANTLE_SNAPSHOT_ENTRIES ids seen of each
 * plant, that of plant r and index i at BELLMANTLE_TRACKER_LAST_COMMITS + n + BELLMANTLE_SNAPSHOT_LOG_WORDS +
 * BELLMANTLE_SNAPSHOT_ENTRIES * r + i. In all it is 514 + 129n words. */
enum bellmantle_tracker {
    BELLMANTLE_TRACKER_N = 0,
    BELLMANTLE_TRACKER_CANONICAL_LENGTH = 1,
    BELLMANTLE_TRACKER_LAST_COMMITS = 2 /* one for each plant */
};

/* What a tick or an end call tells: zeros for a pass. */
enum bellmantle_told {
    BELLMANTLE_TOLD_PROPERTY = 0, /* the number of the first broken property: 1, 3, 4, 6 or 7 */
    BELLMANTLE_TOLD_PLANT = 1,    /* its id */
    BELLMANTLE_TOLD_INDEX = 2,
    BELLMANTLE_TOLD_TEST = 3,
    BELLMANTLE_TOLD_WORDS = 4
};

/* A fresh tracker: 40, 61. */
uint64_t bellmantle_properties_fresh(uint64_t n, uint64_t *tracker, size_t tracker_len);

/* A plant came back without its memory: 40, 41, 61. */
uint64_t bellmantle_properties_reboot(uint64_t n, uint64_t id, uint64_t *tracker, size_t tracker_len);

/* After a tick, properties 1, 3, 4 and 6: 40, 60, 61. The tracker is written on a pass alone. */
uint64_t bellmantle_properties_tick(uint64_t n, const uint64_t *plants, size_t plants_len, const uint64_t *logs, size_t logs_len,
                                    uint64_t *tracker, size_t tracker_len, uint64_t told[4]);

/* At the end of a run, property 7 of the core plants, with a value for each plant: 40, 60, 61. */
uint64_t bellmantle_properties_end(uint64_t n, const uint64_t *plants, size_t plants_len, const uint64_t *logs, size_t logs_len,
                                   const int64_t *values, size_t values_len, const uint64_t *core, size_t core_len,
                                   const uint64_t *tracker, size_t tracker_len, uint64_t told[4]);

#ifdef __cplusplus
}
#endif

#endif
