/*
 * The schema keeper's calls for C and C++.
 *
 * The keeper stands between a directory schema's tables and whoever wants to change them. It holds no state and no
 * memory of its own: every call is lent three byte strings, the stores, and judges or fills them. Link with
 * crates/keeper_c/out/libkeeper_c.a (made by `rt lib` in crates/keeper_c). The archive is for x86-64 Linux; it needs
 * nothing but the C library's memcpy, memmove and memset, and no heap is used.
 * What each call gives and which bytes it writes is proved for every input; docs/PROOFS.md says where.
 * examples/load.c and examples/change.c are small programs that use it.
 *
 * What a caller owes. The proof speaks of what stands in the bytes lent, whatever it is; it cannot speak of pointers:
 *   - Each pointer is valid for the length given beside it, and not NULL even where that length is 0.
 *   - What a call may write (a pointer without const) overlaps nothing else that is lent to the same call. What it
 *     only reads may overlap.
 *   - `detail` is aligned as a uint64_t is; the others are bytes and need no alignment.
 *   - Nobody else writes to what is lent, or reads what may be written, before the call returns. Calls on other
 *     stores may run at the same time in other threads.
 *   - KEEPER_STACK bytes of stack are free.
 *
 * What a caller need not do: check anything. Any bytes may stand in sheet, change and stores, of any length.
 */
#ifndef KEEPER_H
#define KEEPER_H

#include <stddef.h>
#include <stdint.h>

#ifdef __cplusplus
extern "C" {
#endif

/*
 * The lengths of the stores in bytes. A longer store is fine: bytes past the length are neither looked at nor written.
 * A shorter one is refused with KEEPER_SHORT_STORE. docs/LAYOUT.md shows the stores byte by byte.
 */
#define KEEPER_ATTRIBUTES_LENGTH 48386
#define KEEPER_CLASSES_LENGTH 40322
#define KEEPER_CLOSURE_LENGTH 10240

/* The length of `detail`, counted in uint64_t; more is fine. */
#define KEEPER_DETAIL_LENGTH 2

/* So many rows fit into the stores. */
#define KEEPER_ATTRIBUTE_LIMIT 256
#define KEEPER_CLASS_LIMIT 128

/*
 * No sheet that keeper_write writes or keeper_load accepts is longer: 4 + 256 * 224 + 128 * 2761, the heading and the
 * longest rows of both tables. This is proved (write_longest and load_longest in
 * crates/keeper_promises/specs/Promises.antt). A write whose output is too short says so (KEEPER_SHORT_OUTPUT).
 */
#define KEEPER_LONGEST_SHEET 410756

/*
 * So many bytes of stack are enough for every call. This is measured, not proved: the most was some 46,400 bytes, for
 * a quick change that removes an entry, and some 46,100 for a plain change, of a full schema in which every list is
 * nearly full; any other quick change takes some 15,900 (docs/LAYOUT.md).
 */
#define KEEPER_STACK 65536

/*
 * Every call returns a number, and writes two more into `detail`:
 *   detail[0]  the table: KEEPER_NO_TABLE, KEEPER_ATTRIBUTE_TABLE or KEEPER_CLASS_TABLE
 *   detail[1]  the place: a row, a byte offset, a limit, a length or a number of steps
 * Where nothing else is said of them they are 0. The one exception is a `detail` shorter than KEEPER_DETAIL_LENGTH:
 * it counts as a store that is too short, and not even `detail` is written.
 */
#define KEEPER_NO_TABLE 0
#define KEEPER_ATTRIBUTE_TABLE 1
#define KEEPER_CLASS_TABLE 2

/*
 * The numbers that are no rule of the schema. docs/NUMBERS.md says of every number what it means and what can be done
 * about it.
 */
#define KEEPER_DONE 0               /* done; or, audited, in order */
#define KEEPER_SHORT_STORE 1        /* a lent store is shorter than its length: nothing but detail is written */
#define KEEPER_BROKEN_SHAPE 2       /* counts, rows or unused rows hold bytes that no load could have left there */
/*
 * 3 has two meanings. Audit: every row is fine, but the closure store is not what the rows give. Plain change: an audit
 * would not give 0, for that reason or because a row breaks a rule. A quick change never gives 3.
 */
#define KEEPER_NOT_IN_ORDER 3
#define KEEPER_UNREADABLE 4         /* the sheet or the change cannot be read; place: the byte offset */
#define KEEPER_NO_SUCH_ROW 5        /* the class asked for, or the row to be changed, is not there */
#define KEEPER_NO_FREE_ROW 6        /* more rows than fit; load: table, and place: the limit */
#define KEEPER_WRONG_STATE 7        /* a change of a defunct row, or the reactivation of an active one */
#define KEEPER_BASE_ROW 8           /* range, name or deactivation of a row that came with the server */
#define KEEPER_ADDED_BASE_ROW 9     /* the added row is marked as one that came with the server */
#define KEEPER_ENTRY_CONFLICT 10    /* the entry to be added is listed already, or the one to be removed is not */
#define KEEPER_STILL_NEEDED 11      /* something active needs the row that is to be deactivated */
#define KEEPER_MANDATORY_DIFFERS 30 /* some class would demand other attributes than before */
#define KEEPER_SHORT_OUTPUT 31      /* write: the output is too short; place: the length needed */

/*
 * The rules of the schema, in the order of judging: the first that is broken is given. 38 to 40 stand at 21's place and
 * 45 before 30, though their numbers are higher. Load and audit: table and place name the lowest row that breaks the
 * rule, attributes first.
 * These numbers are no one range: test for them by name. Before requests 1, 3 and 7 (docs/requests): 21 was
 * KEEPER_CATEGORY_MISFIT and meant 38 to 40 too; 22 was KEEPER_CHAIN_ASTRAY; 25 was KEEPER_RANGE_EMPTY and was given for
 * equal ends too.
 */
#define KEEPER_NAME_INVALID 12
#define KEEPER_NAME_TAKEN 13
#define KEEPER_IDENTIFIER_INVALID 14
#define KEEPER_IDENTIFIER_TAKEN 15
#define KEEPER_GUID_TAKEN 16
#define KEEPER_ATTRIBUTE_NOT_LIVE 17
#define KEEPER_CLASS_NOT_LIVE 18
#define KEEPER_NOT_AN_AUXILIARY 19
#define KEEPER_NOT_A_SUPERIOR 20
#define KEEPER_ROOT_NOT_ABSTRACT 21
#define KEEPER_ABSTRACT_UNDER_OTHER 38
#define KEEPER_AUXILIARY_UNDER_STRUCTURAL 39
#define KEEPER_STRUCTURAL_UNDER_AUXILIARY 40
/* 22 is not used (it was: a chain of superclasses that does not come to class 0), and will not be used again. */
#define KEEPER_NAMING_UNFIT 23
#define KEEPER_MAPI_TAKEN 24
#define KEEPER_RANGE_CROSSED 25
#define KEEPER_SYNTAX_MISFIT 26
#define KEEPER_OBJECT_CLASS_WRONG 27
#define KEEPER_LINK_TAKEN 28
#define KEEPER_LINK_ALONE 29
#define KEEPER_LINK_SYNTAX_UNFIT 45

/*
 * Loads a sheet into the stores; what stood there before is not looked at.
 *   0       accepted: the stores are in order
 *   1       nothing of the stores is written
 *   4, 6    the sheet cannot be read, or has too many rows, whichever comes first
 *   12..29, 38..40, 45
 *           a rule is broken: the first in the order of judging, then the lowest row
 * Refused by 4 or more, every byte of the stores, up to their lengths, is 0.
 */
uint64_t keeper_load(const uint8_t *sheet, size_t sheet_length,
                     uint8_t *attributes, size_t attributes_length,
                     uint8_t *classes, size_t classes_length,
                     uint8_t *closure, size_t closure_length,
                     uint64_t *detail, size_t detail_length);

/*
 * Writes the stores as a sheet. Of the output only the sheet's bytes are written.
 *   0       written; place: the sheet's length
 *   1, 2    the stores cannot be written
 *   31      the output is too short; place: the length needed
 * Stores in shape are written even if they are not in order; a load of that sheet may refuse it. It does not where only
 * the closure store is wrong (audit 3), since a sheet holds the rows alone.
 */
uint64_t keeper_write(const uint8_t *attributes, size_t attributes_length,
                      const uint8_t *classes, size_t classes_length,
                      const uint8_t *closure, size_t closure_length,
                      uint8_t *output, size_t output_length,
                      uint64_t *detail, size_t detail_length);

/*
 * Are the stores in order?
 *   0       yes
 *   1, 2    they are too short, or out of shape
 *   3       all rows are fine, but the closure store is not what the rows give
 *   12..29, 38..40, 45
 *           a rule is broken: the first in the order of judging, then the lowest row
 */
uint64_t keeper_audit(const uint8_t *attributes, size_t attributes_length,
                      const uint8_t *classes, size_t classes_length,
                      const uint8_t *closure, size_t closure_length,
                      uint64_t *detail, size_t detail_length);

/*
 * Plain change: is the schema, with this change made to it, in order too? Then the change is made. The stores are
 * audited before, and the whole result is judged; docs/FORMAT.md shows changes byte by byte.
 *   0       done: only this change is made, and the stores are in order; table and place: the row changed or added
 *   1, 2    the stores are too short, or out of shape
 *   3       they are not in order: a row breaks a rule, or the closure store is not what the rows give
 *   4       the change cannot be read; place: the byte offset
 *   5..11   the row that it asks for cannot be changed or added so
 *   12..29, 38..40, 45
 *           some row of the result breaks a rule: the first in the order of judging
 *   30      some class would demand other attributes than before
 * The first number that holds, in the order of judging, is given: the rules before 30. Refused, no byte of any store is
 * altered, and table and place are 0 but for the place of 4.
 */
uint64_t keeper_plain_change(const uint8_t *change, size_t change_length,
                             uint8_t *attributes, size_t attributes_length,
                             uint8_t *classes, size_t classes_length,
                             uint8_t *closure, size_t closure_length,
                             uint64_t *detail, size_t detail_length);

/*
 * Quick change: the same change as keeper_plain_change, judged at the changed row alone.
 * What it does not check: whether the stores are in order. Of them it checks shape only, and of the rules only the row
 * that the change alters or adds, against all rows; what the other rows break stays as it is, and the closure store is
 * taken at its word. So it is for stores that a load accepted and that only these calls have changed since.
 * On such stores it is proved to give, change after change, what the plain change gives, in every answer and every
 * byte (demand 3, docs/PROOFS.md). On any others it still gives one fixed answer, touches no byte past the lengths,
 * and refused alters nothing; but what it leaves may be out of order, as what it was given.
 *   0       done: only this change is made; table and place: the row changed or added
 *   1, 2    the stores are too short, or out of shape
 *   4       the change cannot be read; place: the byte offset
 *   5..11   the row that it asks for cannot be changed or added so
 *   12..29, 38..40, 45
 *           the changed row breaks a rule: the first in the order of judging
 *   30      the class would demand other attributes than before
 * It never gives 3. Refused, no byte of any store is altered, and table and place are 0 but for the place of 4.
 */
uint64_t keeper_quick_change(const uint8_t *change, size_t change_length,
                             uint8_t *attributes, size_t attributes_length,
                             uint8_t *classes, size_t classes_length,
                             uint8_t *closure, size_t closure_length,
                             uint64_t *detail, size_t detail_length);

/*
 * How many steps lead from a class up its superclasses to class 0?
 *   0       place: the number of steps, 0 for class 0
 *   1, 2    the stores are too short, or out of shape
 *   5       the class is not there
 *   18      a superclass on the way does not come before its class
 */
uint64_t keeper_depth(const uint8_t *attributes, size_t attributes_length,
                      const uint8_t *classes, size_t classes_length,
                      const uint8_t *closure, size_t closure_length,
                      uint16_t class_number,
                      uint64_t *detail, size_t detail_length);

#ifdef __cplusplus
}
#endif

#endif
