/* prolly.h: look-ups in chunk files, checks, builds, differences and proofs of them, from C.
 *
 * A chunk file is the tree of a sorted map of byte strings. This library works on bytes that its
 * caller has in memory, read or mapped. It opens no file, keeps nothing between calls, starts no
 * thread, and prints nothing.
 *
 * Memory.  All memory is the caller's. Bytes and arrays are given as a pointer and a length. What a
 * look-up finds is a prolly_slice: a pointer into the caller's own bytes and a length. It is right as
 * long as these bytes stay where and as they are, and need not be freed. The calls that need
 * memory of their own say so; they take it with malloc and give it back before they return.
 *
 * Pointers.  No pointer may be NULL, not even where its length is 0. A prolly_slice that is passed
 * for an answer has to be set before, as to PROLLY_EMPTY. What a call writes may overlap neither what
 * it reads nor what else it writes.
 *
 * Threads.  A call has no effect but on what it is given to write. So any number of calls may run at a
 * time over the same bytes and the same index, each with answers, and a cursor, of its own.
 *
 * Statuses.  Each call answers one of `enum prolly_status`, for which prolly_error_text() has a text.
 * If a call is not done, the places for its answers stay as they were, unless the call says otherwise.
 * If it is done, a buffer or an index stays as it was behind the part that the call says it wrote.
 *
 * What is promised is proved, of the library's source code, down to the definition of the map that a
 * file holds: see docs/proofs.md. */
#ifndef PROLLY_H
#define PROLLY_H

#include <stdbool.h>
#include <stddef.h>
#include <stdint.h>

#ifdef __cplusplus
extern "C" {
#endif

/* What a call answers. */
enum prolly_status {
  PROLLY_DONE = 0,        /* it is done; a look-up found something */
  PROLLY_NONE = 1,        /* there is none */
  PROLLY_MEMORY = 2,      /* memory was refused */
  PROLLY_NO_ROOM = 3,     /* no room for the answer; its length is told, but not by prolly_record */
  PROLLY_WRONG_INDEX = 4, /* the index or the cursor is not of these bytes */
  PROLLY_NO_FILE = 5,     /* the bytes are no chunk file (prolly_check tells why) */
  PROLLY_USAGE = 6,       /* a number is out of its range */

  /* Why bytes are no chunk file. Those marked by * name a chunk, counted from 0. */
  PROLLY_TRUNCATED = 16,         /* they end before the end record does */
  PROLLY_BAD_HEADER = 17,        /* one of the first six bytes may not stand there */
  PROLLY_BAD_FRAME = 18,         /* * where the chunk's frame is due another letter stands */
  PROLLY_TRAILING = 19,          /* bytes follow the end record */
  PROLLY_BAD_CHUNK = 20,         /* * it is not a level and whole lawful entries */
  PROLLY_KEYS_OUT_OF_ORDER = 21, /* * a key of it is not greater than the one before */
  PROLLY_NOT_CANONICAL = 22,     /* * the file of the same pairs does not have it there */
  PROLLY_BAD_END = 23,           /* the end record has another root or number of chunks */
  PROLLY_COLLISION = 24,         /* * an earlier chunk has its reference, too */
  PROLLY_READ_FAILED = 25,       /* a read failed; no call answers this, since no read of memory fails */

  /* Why bytes are no record file. All but the last name a record, counted from 0. */
  PROLLY_RECORD_CUT = 32,          /* the bytes end inside the record */
  PROLLY_KEY_TOO_LONG = 33,        /* its key has more than 1,024 bytes */
  PROLLY_VALUE_TOO_LONG = 34,      /* its value has more than 65,536 bytes */
  PROLLY_RECORD_OUT_OF_ORDER = 35, /* its key is not greater than the one before */
  PROLLY_TOO_MANY_RECORDS = 36,    /* there are more than 2^32 - 1 */

  /* Why bytes prove nothing. Those marked by * name a chunk of the proof, counted from 0. */
  PROLLY_PROOF_HEADER = 48,       /* they do not begin as a proof does */
  PROLLY_PROOF_VERSION = 49,      /* they are a proof over chunks of the other version */
  PROLLY_PROOF_TRUNCATED = 50,    /* they end too early */
  PROLLY_PROOF_FRAME = 51,        /* * where the chunk's frame is due another letter stands */
  PROLLY_PROOF_REFERENCE = 52,    /* * it is not the one that is referred to */
  PROLLY_PROOF_CHUNK = 53,        /* * it is not a level and whole lawful entries */
  PROLLY_PROOF_OUT_OF_ORDER = 54, /* * a key of it is not greater than the one before */
  PROLLY_PROOF_LEVEL = 55,        /* * it does not stand one level below the one above it */
  PROLLY_PROOF_TRAILING = 56,     /* bytes follow the proof */

  /* Why prolly_prove finds no proof, beside some of those of a chunk file. Those marked by * name a
   * chunk, counted from 0 in the order of the file. */
  PROLLY_OTHER_VERSION = 64,   /* the file is one of the other version */
  PROLLY_MISSING = 65,         /* a chunk is not where it should stand */
  PROLLY_OTHER_REFERENCE = 66, /* * it is not the one that is referred to, or the root */
  PROLLY_WRONG_LEVEL = 67      /* * it does not stand one level below the one above it */
};

/* What a status says. */
static inline const char *prolly_error_text(uint32_t status) {
  switch (status) {
    case PROLLY_DONE: return "done";
    case PROLLY_NONE: return "there is none";
    case PROLLY_MEMORY: return "out of memory";
    case PROLLY_NO_ROOM: return "no room for the answer";
    case PROLLY_WRONG_INDEX: return "the index is not of these bytes";
    case PROLLY_NO_FILE: return "not a chunk file";
    case PROLLY_USAGE: return "a number or a length is out of its range";
    case PROLLY_TRUNCATED: return "chunk file: truncated";
    case PROLLY_BAD_HEADER: return "chunk file: bad header";
    case PROLLY_BAD_FRAME: return "chunk file: bad frame";
    case PROLLY_TRAILING: return "chunk file: bytes after the end";
    case PROLLY_BAD_CHUNK: return "chunk file: bad chunk";
    case PROLLY_KEYS_OUT_OF_ORDER: return "chunk file: keys out of order";
    case PROLLY_NOT_CANONICAL: return "chunk file: a chunk is not canonical";
    case PROLLY_BAD_END: return "chunk file: bad end record";
    case PROLLY_COLLISION: return "chunk file: a reference is used twice";
    case PROLLY_READ_FAILED: return "chunk file: read failed";
    case PROLLY_RECORD_CUT: return "a record is cut";
    case PROLLY_KEY_TOO_LONG: return "key too long";
    case PROLLY_VALUE_TOO_LONG: return "value too long";
    case PROLLY_RECORD_OUT_OF_ORDER: return "key out of order";
    case PROLLY_TOO_MANY_RECORDS: return "too many records";
    case PROLLY_PROOF_HEADER: return "proof: bad header";
    case PROLLY_PROOF_VERSION: return "proof: wrong version";
    case PROLLY_PROOF_TRUNCATED: return "proof: truncated";
    case PROLLY_PROOF_FRAME: return "proof: bad frame";
    case PROLLY_PROOF_REFERENCE: return "proof: a chunk is not the one referred to";
    case PROLLY_PROOF_CHUNK: return "proof: bad chunk";
    case PROLLY_PROOF_OUT_OF_ORDER: return "proof: keys out of order";
    case PROLLY_PROOF_LEVEL: return "proof: wrong level";
    case PROLLY_PROOF_TRAILING: return "proof: bytes after the end";
    case PROLLY_OTHER_VERSION: return "chunk file: wrong version";
    case PROLLY_MISSING: return "chunk file: chunks are missing";
    case PROLLY_OTHER_REFERENCE: return "chunk file: a chunk is not the one referred to";
    case PROLLY_WRONG_LEVEL: return "chunk file: wrong level";
    default: return "unknown status";
  }
}

/* Whether a status is that of a fault which names a chunk or a record. */
static inline bool prolly_names_place(uint32_t status) {
  switch (status) {
    case PROLLY_BAD_FRAME:
    case PROLLY_BAD_CHUNK:
    case PROLLY_KEYS_OUT_OF_ORDER:
    case PROLLY_NOT_CANONICAL:
    case PROLLY_COLLISION:
    case PROLLY_RECORD_CUT:
    case PROLLY_KEY_TOO_LONG:
    case PROLLY_VALUE_TOO_LONG:
    case PROLLY_RECORD_OUT_OF_ORDER:
    case PROLLY_PROOF_FRAME:
    case PROLLY_PROOF_REFERENCE:
    case PROLLY_PROOF_CHUNK:
    case PROLLY_PROOF_OUT_OF_ORDER:
    case PROLLY_PROOF_LEVEL:
    case PROLLY_OTHER_REFERENCE:
    case PROLLY_WRONG_LEVEL: return true;
    default: return false;
  }
}

/* Some bytes. */
typedef struct prolly_slice {
  const uint8_t *ptr;
  size_t len;
} prolly_slice;

/* A slice of no bytes, as it is to be set before a call answers into it. */
#define PROLLY_EMPTY {(const uint8_t *)"", 0}

/* What a check tells. */
typedef struct prolly_report {
  uint8_t root[20]; /* the reference of the root: the first 20 bytes of a SHA-512 */
  uint8_t version;  /* 1 or 2 */
  uint8_t bits;     /* by how many bits the entries were cut: chunks have some 2^bits entries */
  uint64_t chunks;  /* how many chunks there are */
  uint64_t pairs;   /* how many pairs there are */
  uint64_t faulty;  /* the chunk that a fault names, or 0; where memory was refused it stays */
} prolly_report;

/* A part of an index: where in the bytes some pairs stand that follow one another. The fields are of
 * no use to a caller, who only has to have the room. */
typedef struct prolly_run {
  size_t start;
  size_t end;
  uint64_t first;
} prolly_run;

/* A place between two pairs. A cursor that is all zeros stands before the first pair. It is plain
 * data, and may be copied. */
typedef struct prolly_cursor {
  size_t at;
  size_t end;
  size_t next;
} prolly_cursor;

/* A cursor in each of two files; all zeros stand before the first pair of both. */
typedef struct prolly_cursors {
  prolly_cursor before;
  prolly_cursor after;
} prolly_cursors;

/* ---- Checking */

/* Checks whether the bytes are the one lawful file of some map, and tells what it says.
 *
 * PROLLY_DONE: they are, and `*report` is that of the file. No lawful file is refused, but for want
 * of memory. PROLLY_MEMORY: memory was refused, and `*report` stays. Else the status is the first fault
 * of the bytes, and `report->faulty` is the chunk that it names, or 0; the rest of `*report` stays.
 *
 * Cost: hashes each chunk and each entry once, some 0.6 s for a million pairs. Takes memory for the
 * places and references of the chunks, and for an open node of each level, and copies none of the
 * bytes. */
uint32_t prolly_check(const uint8_t *bytes, size_t len, prolly_report *report);

/* ---- Looking up */

/* Writes the index of a file that was checked, into room for `room` runs, and tells in `*count` how
 * many it has. A run has 24 bytes, and holds 16 pairs of a leaf, or those that are left of it. So an
 * index has some 1.5 bytes a pair where leaves are long, and 24 where each leaf is one pair.
 *
 * PROLLY_DONE: `index[0 .. *count]` is the index. PROLLY_NO_ROOM: `*count` is the number of runs that
 * it needs, and what was written means nothing; so a call with `room` 0 asks for the size.
 * PROLLY_NO_FILE: the bytes are no chunk file, `*count` stays, and what was written means nothing. No
 * other status is answered, and never the last one for bytes that prolly_check accepts.
 *
 * The bytes are not checked: that an index of bytes which are no chunk file is refused is not
 * promised, nor what is found by it. It does no harm: see prolly_get.
 *
 * Cost: goes over the pairs once, and hashes nothing. Takes no memory. */
uint32_t prolly_index(const uint8_t *bytes, size_t len, prolly_run *index, size_t room, size_t *count);

/* The value of a key.
 *
 * With the index that prolly_index wrote of these bytes, which prolly_check accepts, the status is
 * PROLLY_DONE and `*value` is the value of the key, or PROLLY_NONE and the map has none. No other
 * status is answered.
 *
 * With any other index, or any other bytes, the status is one of these or PROLLY_WRONG_INDEX, and
 * nothing is promised of the value but that it lies in the bytes. No call reads beyond the bytes, the
 * index and the key, whatever they are.
 *
 * Cost: compares the key with some log2(pairs / 16) keys, and then with 16. Takes no memory. */
uint32_t prolly_get(const uint8_t *bytes, size_t len, const prolly_run *index, size_t runs,
                    const uint8_t *key, size_t key_len, prolly_slice *value);

/* The key and the value of the pair of this number, counted from 0 in the order of the keys. Else as
 * prolly_get. */
uint32_t prolly_nth(const uint8_t *bytes, size_t len, const prolly_run *index, size_t runs,
                    uint64_t number, prolly_slice *key, prolly_slice *value);

/* ---- Going over pairs */

/* Puts a cursor before the first pair whose key is not less than `from`, or behind all pairs where
 * there is none. The status is PROLLY_DONE, or for an index that is not of these bytes perhaps
 * PROLLY_WRONG_INDEX. Cost: as prolly_get. */
uint32_t prolly_seek(const uint8_t *bytes, size_t len, const prolly_run *index, size_t runs,
                     const uint8_t *from, size_t from_len, prolly_cursor *cursor);

/* The pair behind a cursor, and puts the cursor behind it.
 *
 * With the index of these bytes, as prolly_get says, and a cursor that is all zeros, or that
 * prolly_seek or prolly_next has put over the same bytes: PROLLY_DONE, and the key and the value are
 * those of the next pair in the order of the keys; or PROLLY_NONE, no pair is left, and the cursor
 * stays. Else as prolly_get. So it goes over the pairs of a proof, too: see prolly_verify_range.
 *
 * Cost: the same for each pair. Takes no memory. */
uint32_t prolly_next(const uint8_t *bytes, size_t len, const prolly_run *index, size_t runs,
                     prolly_cursor *cursor, prolly_slice *key, prolly_slice *value);

/* ---- Comparing */

/* The next change between an old file and a new one, each with its index, and moves the cursors
 * behind it. Files of different bits and versions will do.
 *
 * With the right indexes, and cursors that are all zeros or that this call has moved over the same
 * files: PROLLY_DONE, and `*key` is the least key behind the cursors in which the files differ. `*sides`
 * is 1 where the old one alone has it, 2 where the new one alone has it, and 3 where both have it with
 * different values. `*before` is the value in the old file, `*after` that in the new one; of a side
 * that lacks the key the value stays as it was. Or PROLLY_NONE: there is no difference behind the
 * cursors, which stay. Else as prolly_get.
 *
 * Cost: that of going over the pairs of both up to the change. Takes no memory. */
uint32_t prolly_diff_next(const uint8_t *old_bytes, size_t old_len, const prolly_run *old_index,
                          size_t old_runs, const uint8_t *new_bytes, size_t new_len,
                          const prolly_run *new_index, size_t new_runs, prolly_cursors *cursors,
                          prolly_slice *key, prolly_slice *before, prolly_slice *after,
                          uint32_t *sides);

/* ---- Building */

/* Appends a record, which puts a value at a key, behind the first `*at` bytes of a buffer, and moves
 * `*at` behind it. A record file is such records one behind another, in the order of their keys.
 *
 * PROLLY_DONE: it is appended; it has 6 bytes beside key and value. PROLLY_NO_ROOM: the buffer has no
 * room for it. PROLLY_USAGE: the key has more than 1,024 bytes or the value more than 65,536, whatever
 * room there is. Where it is not done, nothing is changed. */
uint32_t prolly_record(const uint8_t *key, size_t key_len, const uint8_t *value, size_t value_len,
                       uint8_t *out, size_t room, size_t *at);

/* The chunk file of a record file, in version 1 or 2, cut by a number of bits from 0 to 24; 6 is good
 * for look-ups. Records that remove a key put nothing.
 *
 * PROLLY_DONE: the file is `out[0 .. *count]`, and `root` the reference of its root. PROLLY_NO_ROOM:
 * `*count` is the length of the file, and nothing else is written. PROLLY_USAGE: no such version or
 * number of bits. PROLLY_MEMORY: memory was refused. Else the status is the first fault of the
 * records, and `*place` the record that it names.
 *
 * Cost: hashes each pair and each chunk once, some 0.8 s for a million pairs, also where there is no
 * room. Takes memory for the pairs and for the file twice. */
uint32_t prolly_scratch(uint8_t version, uint8_t bits, const uint8_t *records, size_t len, uint8_t *out,
                        size_t room, size_t *count, uint8_t root[20], uint64_t *place);

/* ---- Proofs */

/* What a proof says of a key, in the tree of version 1 or 2 that has this root. Root and version have
 * to come from who is trusted, and not from who made the proof.
 *
 * PROLLY_DONE: the value is `*value`, which lies in the proof. PROLLY_NONE: the key has none. So it
 * is in each map with this root, unless two different chunks have one reference. PROLLY_USAGE: no
 * such version. Else the proof proves nothing: the status is its first fault, and `*chunk` the chunk
 * that it names.
 *
 * Cost: hashes and reads the proof once. Takes no memory. */
uint32_t prolly_verify(uint8_t version, const uint8_t root[20], const uint8_t *key, size_t key_len,
                       const uint8_t *proof, size_t proof_len, prolly_slice *value, uint64_t *chunk);

/* The proof of what the tree of version 1 or 2 with this root has at a key, out of its chunk file,
 * which need not be checked.
 *
 * PROLLY_DONE: the proof is `out[0 .. *count]`, and prolly_verify takes it. PROLLY_NO_ROOM: `*count`
 * is its length, and nothing else is written. PROLLY_USAGE: no such version. PROLLY_MEMORY: memory was
 * refused, as it is for a chunk of more than 1 GiB. Else the status is that of the first fault that a
 * look-up of the key finds in the file, one of a chunk file or of the last four, and `*chunk` the chunk
 * that it names. The file of a tree with this root is never refused so.
 *
 * Cost: goes over the frames of the file, and hashes one chunk a level. Takes memory for these. */
uint32_t prolly_prove(const uint8_t *bytes, size_t len, uint8_t version, const uint8_t root[20],
                      const uint8_t *key, size_t key_len, uint8_t *out, size_t room, size_t *count,
                      uint64_t *chunk);

/* ---- Proofs of ranges: of the keys that are not less than `from`, and, where the range is
 * `bounded`, less than `to`. Where it is not, `to` is not looked at, and may be of length 0. */

/* What a proof shows of a range, in the tree of version 1 or 2 that has this root. Root and version
 * have to come from who is trusted, and not from who made the proof. It writes the index of the pairs
 * that are shown, over the bytes of the proof, into room for `room` runs, and tells in `*count` how
 * many it has.
 *
 * PROLLY_DONE: `index[0 .. *count]` is the index. With it, and the bytes of the proof, prolly_next
 * goes over the pairs of the range, from a cursor that is all zeros on: over those that each map with
 * this root has there, and no other, unless two different chunks have one reference. PROLLY_NO_ROOM:
 * `*count` is the number of runs that it needs, and what was written means nothing. PROLLY_USAGE: no
 * such version. PROLLY_MEMORY: memory was refused, as it is for a chunk of more than 1 GiB. Else the
 * bytes prove nothing: the status is their first fault, and `*chunk` the chunk that it names. A proof
 * is never refused so.
 *
 * Cost: hashes the proof once, also where there is no room. A run is of 16 pairs as a rule, and a
 * proof of n bytes never needs more than n / 6 runs. Takes memory for one chunk, and for references. */
uint32_t prolly_verify_range(uint8_t version, const uint8_t root[20], const uint8_t *from, size_t from_len,
                             const uint8_t *to, size_t to_len, bool bounded, const uint8_t *proof,
                             size_t proof_len, prolly_run *index, size_t room, size_t *count,
                             uint64_t *chunk);

/* The proof of what the tree of version 1 or 2 with this root has in a range, out of its chunk file,
 * which need not be checked. Else as prolly_prove, but that the first fault is the one for the proof of
 * the range. prolly_verify_range takes what is written.
 *
 * Cost: goes over the frames of the file, and hashes the chunks of the proof. Takes memory for the
 * proof. */
uint32_t prolly_prove_range(const uint8_t *bytes, size_t len, uint8_t version, const uint8_t root[20],
                            const uint8_t *from, size_t from_len, const uint8_t *to, size_t to_len,
                            bool bounded, uint8_t *out, size_t room, size_t *count, uint64_t *chunk);

#ifdef __cplusplus
}
#endif

#endif
