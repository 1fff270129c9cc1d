/*
 * stocklog.h - the shared stock log: append, read, play, audit and price over lent memory.
 *
 * Every function here is proved against the definitions in crates/model/specs: for any bytes and numbers it ends, touches
 * nothing but what is lent to it, and either does its work or returns one of the refusals below. docs/TRUST.md says what that rests on.
 *
 * CONVENTION, the same for all calls
 *
 * - A slice is a pointer and a length in elements, in that order.
 * - The result is STOCKLOG_DONE, or the number of a refusal.
 * - The first argument of every call is a directory of objects (below), as a slice of bytes. It is judged before all else.
 * - The last argument, out, is written whole on every return, whatever was in it: values in out[0] to out[2], and in out[3] what a
 *   refusal tells: an offset with STOCKLOG_BAD_ENTRY, STOCKLOG_FALSE_RECORD and the audit's STOCKLOG_NO_ROOM, a place of the directory
 *   with STOCKLOG_DIRECTORY, the place of a read with STOCKLOG_ASTRAY, a key with STOCKLOG_NO_PRICE. A place of out in which nothing is
 *   said is 0. So out[3] is 0 for every other answer; it is also 0 where the number told is 0: the result tells the two apart.
 *   Unless a call's text says otherwise, out[0] to out[2] are 0 where the call is refused.
 * - No call keeps a pointer, allocates, has state of its own, or waits. Calls from several threads are safe as long as none of
 *   them writes what another uses.
 *
 * WHAT IS ASKED OF THE CALLER. No call can test it, and nothing is promised of one for which it does not hold.
 *
 * - A slice is memory of its whole length, readable, and writable where the pointer is not to const. Byte slices need no alignment;
 *   a list is aligned as uint32_t is, declared sets as uint64_t are. An empty slice may have any pointer, a null one too: it is not followed.
 * - out is not null, is aligned as uint64_t is, and has all its places: 4, for stocklog_entry 8.
 * - What a call may write (out, and a log, table or list whose pointer is not to const) overlaps nothing else that is handed to it.
 *   What it only reads may overlap.
 * - During the call nobody else writes what is lent to it, or reads what it writes.
 * - So much stack is left as is stated below; STOCKLOG_STACK is enough for any call.
 *
 * Nothing is asked of the bytes and the numbers: they may be any.
 *
 * THE LOG is a slice of 256-byte slots, at most 131,072 of them; tail counts the used ones. The caller keeps the tail: 0 for a
 * new log (whose bytes may be anything), then what each append answers. Slots at and above the tail are neither read nor judged.
 * Integers in slots, items, tables, directories and prices are unsigned and stored most significant byte first.
 *
 * A DIRECTORY says which objects there are: 1 to 64 records of 16 bytes, dir_len / 16 of them. An object's place is that of its record,
 * from 0. A record:
 *   bytes 0-1    0x4F 0x42 (OB)
 *   bytes 2-3    0
 *   bytes 4-7    id, from 1 to 2,147,483,647; ids ascend strictly from place to place
 *   bytes 8-11   highest key: of a map from 0 to 4,294,967,294, of a register 0
 *   byte 12      kind: 1 map, 2 register
 *   byte 13      marked: 1 or 0; it is judged, and no call uses it otherwise (earlier versions did in stocklog_owed)
 *   bytes 14-15  0
 * A directory that is anything else gets STOCKLOG_DIRECTORY from every call, and out[3] tells the first place at fault, from 0: where a
 * record breaks these rules, or its id is not above the one before; where it is cut, or, of a directory of no bytes, missing; place
 * 64, if a record begins there. Nothing is changed then.
 * No log says which directory it was made with. The caller keeps one directory for each log, for the log's whole life, and hands it to
 * every call on that log and its replicas. A call judges by the directory that it is handed: an entry that names an object or a key
 * that is not there is a bad entry, and such an object or key in a call's own argument a bad request.
 *
 * OBJECTS, each of which is one stream. Keys go from 0 to the highest; a register has key 0 alone. Those of the depots, whose directory
 * is stocklog_eight below:
 *   1 filters used, by patient  9999  marked     5 orders, by item    9999
 *   2 north depot stock          499             6 next order number     0  marked
 *   3 south depot stock          499  marked     7 price list number     0
 *   4 van stock                  499  marked     8 last stocktake        0
 *
 * ITEMS are 16 bytes each:
 *   a write: object 4, key 4, operation 4 (1 put, 2 remove), value 4 (0 for remove)
 *   a read:  object 4, key 4, version 8; strictly ascending by object, then key
 *   a decision: offset 8, outcome 4, 4 zero
 *   a checkpoint's cell: key 4, value 4, version 8 (the top bit set for a removed cell)
 *
 * A VERSION is one more than the offset of the entry that last changed a cell; 0 for a cell never written. A removed cell has one.
 * It is what stocklog_read_cell answers, and what a read has. An offset sent in its place is one too low: STOCKLOG_ASTRAY is for that,
 * though offset 0, and one that is a version of the cell by chance, pass.
 *
 * A COMMIT RECORD MAY NAME one or two other transaction numbers, after which alone its transaction may commit: a delivery after its
 * order. It then aborts where a read is stale, or where a named number has not committed below it: where no commit record of that number
 * is at a lower offset, or that one aborts, by its reads or by what it names itself. A number that nobody uses, that is still open or
 * that commits later may be named; the transaction aborts. Of the two numbers 0 stands for none, one that is named alone is the first, two
 * ascend strictly, and neither is the commit's own. They stand in bytes 248-251 and 252-255 of the slot, which are zero in all other
 * entries.
 * Only a replica that hosts every object of the directory decides such a record by itself. What has committed it works out from the log,
 * from offset 0 on, whatever its own position and cells are and whatever decision records say. Any other replica of an object that the
 * transaction writes takes the outcome from the decision record, or waits for one, also where it hosts all objects read.
 * What that costs: an audit, and a play of a replica of every object, that meets a commit record with names works the log out from offset 0 once
 * more: one and a half times to twice the time. Where the directory has more than 24,511 cells, it does so over a table of its own with 24,576 rows
 * (12,288 for a log of at most 1,024 entries, which has no more cells), and takes about three times as long; from the entry on that writes one
 * cell more than that, each read is looked for down the log, which is slow: a factor of the log's length.
 * Logs without names, and other replicas, pay nothing for it.
 *
 * A REPLICA is a record of three numbers, which the caller keeps and hands over: the hosted set (64 bits: bit k for the object at
 * place k of the directory), the position, and the count of cells; and a lent table of 24-byte rows, one cell each: object 4, key 4,
 * value 4 (0 if removed), present 4 (1 or 0), version 8. Its capacity is table_len / 24. A hosted set has at least one bit, and none
 * past the directory's last record. The first rows, as many as the count says, ascend strictly by object, then key, both compared as
 * the stored unsigned numbers. Bytes past the counted rows are not touched.
 * A call that takes a record with a table (stocklog_play, stocklog_append_checkpoint, stocklog_read_cell, stocklog_price) answers 10 where
 * its counted rows do not ascend so, whatever objects and keys they name, a cell twice included. Rows of objects that are not hosted, or not in
 * the directory, are otherwise left alone: where a new row comes before them they move with all their bytes. stocklog_open_checkpoint and
 * stocklog_audit look at no row of the table lent to them.
 * A table kept from an earlier version of this library has its rows in order of first writing: it gets 10 unless it ascends by chance.
 * Open the replica anew and play it.
 *
 * PRICES, for stocklog_price, are records of 20 bytes, prices_len / 20 of them, whose keys ascend strictly; there may be none.
 *   bytes 0-1    0x50 0x52 (PR)
 *   bytes 2-3    0
 *   bytes 4-7    key, any number
 *   bytes 8-11   cents, at most 9,999,999
 *   bytes 12-15  break quantity
 *   bytes 16-19  percent off, at most 100
 * A line is what a quantity of one key costs, in cents. Below the break quantity it is quantity * cents. From the break quantity on, the
 * whole line is lowered by the percent and rounded to the nearest cent, a half upward: (quantity * cents * (100 - percent) + 50) / 100,
 * rounded down. It is the lowered line that is rounded, once; not the price of one piece, and not what is taken off:
 *   3 pieces at 333 cents, 10 percent off from 3 on:  999 * 90 / 100 = 899.1, so 899 (2 pieces are 666)
 *   5 pieces at 1 cent, 50 percent off from 0 on:     5 * 50 / 100 = 2.5, so 3
 */
#ifndef STOCKLOG_H
#define STOCKLOG_H

#include <stddef.h>
#include <stdint.h>

#ifdef __cplusplus
extern "C" {
#endif

/*
 * The result of every call. "Left behind" is said at each call; with 1 to 10, 14 to 16 and 19 nothing is changed, whatever the call.
 * Each call states its refusals in the order in which it tests for them; 15 is ahead of all others in every call.
 */
enum {
    STOCKLOG_DONE = 0,
    STOCKLOG_FRAME = 1,         /* log_len not whole slots, over 131,072 slots, or tail above the slots */
    STOCKLOG_BAD_ENTRY = 2,     /* an entry below the tail breaks the slot rules; out[3]: the lowest such offset */
    STOCKLOG_BAD_REQUEST = 3,   /* an argument breaks the slot rules or is out of range: see each call */
    STOCKLOG_CLOSED = 4,        /* the number has a commit record */
    STOCKLOG_WIDE = 5,          /* the update, or its transaction with it, names over four objects */
    STOCKLOG_EMPTY = 6,         /* a commit without an update */
    STOCKLOG_NO_COMMIT = 7,     /* a decision for an entry that is no commit record */
    STOCKLOG_DECIDED = 8,       /* the commit record has a decision record */
    STOCKLOG_FULL = 9,          /* tail equals the slots */
    STOCKLOG_BAD_REPLICA = 10,  /* hosted set 0 or with a bit past the directory's last record, count over the table's capacity,
                                   counted rows that do not ascend strictly by object, then key, or position over the tail */
    STOCKLOG_FALSE_RECORD = 11, /* audit: a decision or checkpoint is not as played; out[3]: the lowest such offset */
    STOCKLOG_WAITING = 12,      /* play: a commit record whose reads are not all hosted, or that names a number while not all
                                   objects are, with no decision record yet */
    STOCKLOG_NO_ROOM = 13,      /* more new cells than the table has room for, more offsets than the list, or more than
                                   12 cells for a checkpoint; from the audit, out[3]: the entry's offset */
    STOCKLOG_BEHIND = 14,       /* a checkpoint from a replica that is not at the tail */
    STOCKLOG_DIRECTORY = 15,    /* the directory breaks its rules; out[3]: the first place at fault, from 0 */
    STOCKLOG_ASTRAY = 16,       /* a commit has a read with a version v over 0, and the entry at v - 1 is neither a plain
                                   update that writes the cell nor a commit record whose updates do; out[3]: the place,
                                   from 0, of the first such read */
    STOCKLOG_NO_PRICE = 19      /* a cell that is to be priced has no price in the list; out[3]: the lowest such key */
};

/* Kinds of entry, as stocklog_entry says them. */
enum { STOCKLOG_UPDATE = 1, STOCKLOG_COMMIT = 2, STOCKLOG_DECISION = 3, STOCKLOG_CHECKPOINT = 4 };

/* Operations of a write, and outcomes of a decision. */
enum { STOCKLOG_PUT = 1, STOCKLOG_REMOVE = 2 };
enum { STOCKLOG_COMMITTED = 1, STOCKLOG_ABORTED = 2 };

/* What stocklog_read_cell found, in out[0]. */
enum { STOCKLOG_NEVER_WRITTEN = 0, STOCKLOG_HOLDS = 1, STOCKLOG_REMOVED = 2 };

/* Sizes in bytes, and limits. */
enum {
    STOCKLOG_SLOT_SIZE = 256,
    STOCKLOG_ITEM_SIZE = 16,
    STOCKLOG_CELL_SIZE = 24,
    STOCKLOG_RECORD_SIZE = 16,
    STOCKLOG_PRICE_SIZE = 20,
    STOCKLOG_MOST_SLOTS = 131072,
    STOCKLOG_MOST_ITEMS = 12,
    STOCKLOG_MOST_OBJECTS = 64,
    STOCKLOG_MOST_SETS = 16 /* declared to stocklog_owed */
};

/* Kinds of object, in a directory's record. */
enum { STOCKLOG_MAP = 1, STOCKLOG_REGISTER = 2 };

/* The directory of the depots' eight objects: 128 bytes, a record to a line. */
static const uint8_t stocklog_eight[128] = {
    0x4F, 0x42, 0, 0, 0, 0, 0, 1, 0, 0, 0x27, 0x0F, 1, 1, 0, 0, /* filters used, by patient: map to 9999, marked */
    0x4F, 0x42, 0, 0, 0, 0, 0, 2, 0, 0, 0x01, 0xF3, 1, 0, 0, 0, /* north depot stock: map to 499 */
    0x4F, 0x42, 0, 0, 0, 0, 0, 3, 0, 0, 0x01, 0xF3, 1, 1, 0, 0, /* south depot stock: map to 499, marked */
    0x4F, 0x42, 0, 0, 0, 0, 0, 4, 0, 0, 0x01, 0xF3, 1, 1, 0, 0, /* van stock: map to 499, marked */
    0x4F, 0x42, 0, 0, 0, 0, 0, 5, 0, 0, 0x27, 0x0F, 1, 0, 0, 0, /* orders, by item: map to 9999 */
    0x4F, 0x42, 0, 0, 0, 0, 0, 6, 0, 0, 0x00, 0x00, 2, 1, 0, 0, /* next order number: register, marked */
    0x4F, 0x42, 0, 0, 0, 0, 0, 7, 0, 0, 0x00, 0x00, 2, 0, 0, 0, /* price list number: register */
    0x4F, 0x42, 0, 0, 0, 0, 0, 8, 0, 0, 0x00, 0x00, 2, 0, 0, 0  /* last stocktake: register */
};

/*
 * Bytes of stack that are enough for any call, from its entry on, on x86-64. No call recurses, and its arrays have fixed
 * lengths, so its use does not depend on the log. For one call these are enough:
 *   3,060,000  stocklog_audit, stocklog_play
 *   2,590,000  stocklog_owed
 *       1,000  stocklog_open_fresh, stocklog_read_cell, stocklog_price
 *   2,530,000  each other
 * tools/stack adds up what is used from the archive's machine code (frames along the calls, and 16 KiB for memset and memcpy),
 * and fails where it is more than is stated here, or where a figure here is over 5 % and over 1,000 bytes more.
 */
enum { STOCKLOG_STACK = 3145728 };

/* ---- Reading a log. Nothing lent is changed, but for out and the list of stocklog_stream_list. ---- */

/* Judges the directory, the frame and every entry below the tail. Refusals, in this order: 15, 1, 2. */
uint32_t stocklog_check(
    const uint8_t *dir, size_t dir_len, const uint8_t *log, size_t log_len, uint64_t tail, uint64_t out[4]);

/*
 * The lowest commit record that owes a decision record to one of the declared sets. Declared are up to 16 sets, as hosted sets are: bit
 * k for the object at place k of the directory. They say what replicas host that shall not be left waiting. A commit record owes where
 * some declared set has an object of its headers (those that its transaction's updates write) but not all objects that it reads, or,
 * where it names a number, not all objects of the directory; and no decision record below the tail names it. Whether a decision is true
 * does not matter here. With no set declared nothing is owed, and to a set of all objects nothing is. A set may be declared twice, and
 * their order does not matter.
 * Where nothing is owed, no stocklog_play on this log with this tail answers 12 to a record that hosts one of the sets. To pay, append
 * a decision record for the offset told, and ask again: a decision makes no new debt.
 * Done: out[0] is 1 and out[1] its offset; or out[0] and out[1] are 0 where none owes. Refusals: 15, 1, 2, 3 (over 16 sets, a set that is
 * 0, or one with a bit past the directory's last record).
 */
uint32_t stocklog_owed(
    const uint8_t *dir, size_t dir_len, const uint8_t *log, size_t log_len, uint64_t tail, const uint64_t *sets,
    size_t sets_len, uint64_t out[4]);

/*
 * The entry at an offset. Note the eight places of out.
 * Done: out[0] its kind (STOCKLOG_UPDATE ..), out[1] its transaction number (0 is none), out[2] how many headers, out[4] how many
 * items, out[5] and out[6] the numbers that it names (0 for none, and for all but a commit record). Refused: out[3] as everywhere, the
 * others 0. Refusals: 15, 1, 2, 3 (offset not below the tail).
 */
uint32_t stocklog_entry(
    const uint8_t *dir, size_t dir_len, const uint8_t *log, size_t log_len, uint64_t tail, uint64_t offset,
    uint64_t out[8]);

/*
 * One stream header of the entry at an offset, by its place from 0.
 * Done: out[0] the object, out[1] the pointer format, out[2] the stored 8 bytes as one number: with format 0 four 2-byte distances
 * back, the nearest in the top 16 bits, 0 where there is none; with format 1 the nearest earlier entry's offset.
 * Refusals: 15, 1, 2, 3 (offset not below the tail, or place not below the number of headers).
 */
uint32_t stocklog_header(
    const uint8_t *dir, size_t dir_len, const uint8_t *log, size_t log_len, uint64_t tail, uint64_t offset,
    uint32_t place, uint64_t out[4]);

/*
 * Where the items of the entry at an offset lie in the log's own bytes.
 * Done: out[0] their byte position in the log, out[1] their length in bytes. Refused: 0, 0.
 * Refusals: 15, 1, 2, 3 (offset not below the tail).
 */
uint32_t stocklog_items(
    const uint8_t *dir, size_t dir_len, const uint8_t *log, size_t log_len, uint64_t tail, uint64_t offset,
    uint64_t out[4]);

/*
 * A stream reader's next: the lowest entry of an object at or above offset from.
 * Done: out[0] 1, out[1] the entry's offset, out[2] the reader's next offset (one past it); or, at the end, 0, 0 and the tail.
 * Refused: 0, 0, from. Refusals: 15, 1, 2, 3 (an object that is not in the directory, or from above the tail).
 */
uint32_t stocklog_stream_next(
    const uint8_t *dir, size_t dir_len, const uint8_t *log, size_t log_len, uint64_t tail, uint32_t object,
    uint64_t from, uint64_t out[4]);

/*
 * All offsets of an object's entries, ascending, into the start of list; the rest of the list is untouched.
 * Done: out[0] how many. Refused: the list is untouched. Refusals: 15, 1, 2, 3 (an object that is not in the directory),
 * 13 (more offsets than list_len).
 */
uint32_t stocklog_stream_list(
    const uint8_t *dir, size_t dir_len, const uint8_t *log, size_t log_len, uint64_t tail, uint32_t object,
    uint32_t *list, size_t list_len, uint64_t out[4]);

/* ---- Appending. Done: out[0] is the new tail, and exactly the 256 bytes of the slot at the old tail are written. ----
 * ---- Refused: no byte of the log is changed.                                                                     ---- */

/*
 * An update of 1 to 12 writes. Number 0 is a plain update, which is made at once; any other number sets the writes aside for its
 * commit record. Refusals: 15, 1, 2, 3 (items_len not 16 times 1 to 12; a write's object, key, operation or value), 5 (the update
 * names over four objects), 4, 5 (its transaction does, with it), 9.
 */
uint32_t stocklog_append_update(
    const uint8_t *dir, size_t dir_len, uint8_t *log, size_t log_len, uint64_t tail, uint32_t number,
    const uint8_t *items, size_t items_len, uint64_t out[4]);

/*
 * A commit record with 0 to 12 reads, and one or two other numbers that it names, or none: first and second, 0 for none. The transaction
 * commits where every read's version is the cell's version there and every named number has committed below.
 * Refusals: 15, 1, 2, 3 (number 0; reads_len not 16 times 0 to 12; a read's object or key; a version above the tail; reads not
 * strictly ascending; a second number without a first, or not above it; the commit's own number), 4, 6, 16 (a read's version is no version that the cell had or, had a commit record committed, would have
 * had; out[3] its place from 0), 9. A stale version is not refused: it makes the transaction abort. What a replica of a log that
 * the audit passes shows is never refused with 16. Logs that have such reads already stay good.
 */
uint32_t stocklog_append_commit(
    const uint8_t *dir, size_t dir_len, uint8_t *log, size_t log_len, uint64_t tail, uint32_t number,
    const uint8_t *reads, size_t reads_len, uint32_t first, uint32_t second, uint64_t out[4]);

/*
 * A decision record: the outcome (STOCKLOG_COMMITTED or STOCKLOG_ABORTED) of the commit record at an offset. Whether it is true is
 * for the audit. Refusals: 15, 1, 2, 3 (offset not below the tail, or another outcome), 7, 8, 9.
 */
uint32_t stocklog_append_decision(
    const uint8_t *dir, size_t dir_len, uint8_t *log, size_t log_len, uint64_t tail, uint64_t offset,
    uint32_t outcome, uint64_t out[4]);

/*
 * A checkpoint: every cell of one object that a replica at the tail has. The table is only read.
 * Refusals: 15, 1, 2, 10, 3 (object not in the directory or not hosted; a cell of it, up to the count, whose key is over the highest
 * or whose version is not 1 to the tail), 14, 13 (over 12 cells), 9.
 */
uint32_t stocklog_append_checkpoint(
    const uint8_t *dir, size_t dir_len, uint8_t *log, size_t log_len, uint64_t tail, uint64_t hosted,
    uint64_t position, uint64_t count, const uint8_t *table, size_t table_len, uint32_t object,
    uint64_t out[4]);

/* ---- Replicas. Where a call answers a record, out[0] is the hosted set, out[1] the position, out[2] the count of cells. ---- */

/*
 * A replica of a set of objects at offset 0, with no cells: any table serves it.
 * Done: the record. Refusals: 15, 10 (hosted 0, or with a bit past the directory's last record).
 */
uint32_t stocklog_open_fresh(const uint8_t *dir, size_t dir_len, uint64_t hosted, uint64_t out[4]);

/*
 * A replica opened at the checkpoint at an offset: it hosts that object alone, from the next offset, its cells in key order.
 * Done: the record; its cells are written to the start of the table. Refused: 0, 0, 0, and the table is unchanged.
 * Refusals: 15, 1, 2, 3 (offset not below the tail, or no checkpoint there), 13 (more cells than the table's capacity).
 */
uint32_t stocklog_open_checkpoint(
    const uint8_t *dir, size_t dir_len, const uint8_t *log, size_t log_len, uint64_t tail, uint64_t offset,
    uint8_t *table, size_t table_len, uint64_t out[4]);

/*
 * Plays a replica from its position to a stop. Whatever the answer, out has the record to go on with.
 * Done: the record at the stop. 12: the record at the commit record that it waits for; 13: at the entry that has no room; in both
 * cases the table shows all entries below that position and nothing of the one there. After all three the counted rows ascend.
 * Any other refusal: the record as it was given, the table unchanged. Refusals: 15, 1, 2, 10, 3 (stop above the tail, or below the
 * position), then at an entry 12 before 13. 13 tells no offset here: it is the record's position.
 */
uint32_t stocklog_play(
    const uint8_t *dir, size_t dir_len, const uint8_t *log, size_t log_len, uint64_t tail, uint64_t hosted,
    uint64_t position, uint64_t count, uint8_t *table, size_t table_len, uint64_t stop, uint64_t out[4]);

/*
 * What a replica shows for a cell.
 * Done: out[0] STOCKLOG_NEVER_WRITTEN, and 0, 0; or STOCKLOG_HOLDS, the value and the version; or STOCKLOG_REMOVED, 0 and the
 * version. Refusals: 15, 10 (there is no tail, so the position is not tested; the hosted set and the rows are), 3 (object not in the
 * directory or not hosted, or key over its highest).
 */
uint32_t stocklog_read_cell(
    const uint8_t *dir, size_t dir_len, uint64_t hosted, uint64_t position, uint64_t count,
    const uint8_t *table, size_t table_len, uint32_t object, uint32_t key, uint64_t out[4]);

/*
 * What the cells of one map of a replica cost together, by a list of prices: the sum of the lines of its cells that are present with a
 * quantity over 0, the value being the quantity. Cells that were removed or hold 0 need no price, and rows whose key is over the map's
 * highest are no cells. Prices of other keys do not matter. Nothing is changed.
 * Done: out[0] the high 64 bits of the total in cents, out[1] the low 64 bits: out[0] * 2^64 + out[1]. Refusals: 15, 10 (there is no tail,
 * so the position is not tested), 3 (object not in the directory, not hosted, or a register; prices_len not a multiple of 20; a price
 * with another mark or other zero bytes, over 9,999,999 cents or over 100 percent, or a key that is not above the one before; whatever
 * the cells are), 19 (out[3] the lowest key to be priced that has no price).
 */
uint32_t stocklog_price(
    const uint8_t *dir, size_t dir_len, uint64_t hosted, uint64_t position, uint64_t count,
    const uint8_t *table, size_t table_len, uint32_t object, const uint8_t *prices, size_t prices_len,
    uint64_t out[4]);

/*
 * The audit: plays every object from offset 0 over a scratch table, and compares each decision and each checkpoint with the play.
 * Done: the record at the tail, as for a replica of all objects of the directory with the scratch as its table. 11: the same, and
 * out[3] the lowest decision or checkpoint that is not as played. 13: the record at the entry that has no room, whose offset out[3]
 * tells too; the scratch shows all entries below it. After all three its counted rows ascend. 15, 1, 2: 0, 0, 0, the scratch
 * unchanged. Refusals: 15, 1, 2, 13, 11.
 */
uint32_t stocklog_audit(
    const uint8_t *dir, size_t dir_len, const uint8_t *log, size_t log_len, uint64_t tail, uint8_t *scratch,
    size_t scratch_len, uint64_t out[4]);

#ifdef __cplusplus
}
#endif

#endif
