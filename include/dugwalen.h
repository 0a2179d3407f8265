/*
 * Dugwalen's decision for an SNMPv3 agent in C: RFC 3415's isAccessAllowed over the bytes of a table image.
 * Link target/staticlib/libdugwalen.a, which `bin/staticlib dugwalen` proves and writes; it needs no other library.
 */
#ifndef DUGWALEN_H
#define DUGWALEN_H

#include <stddef.h>
#include <stdint.h>

#ifdef __cplusplus
extern "C" {
#endif

/* ---- The answers. The call gives no other number. ---- */

/* The view includes the variable. */
#define DUGWALEN_ACCESS_ALLOWED 0u

/* The five causes of RFC 3415, section 3.2. */
#define DUGWALEN_NO_SUCH_CONTEXT 1u /* no context row has the context name */
#define DUGWALEN_NO_GROUP_NAME 2u   /* no active mapping row has the security model and name */
#define DUGWALEN_NO_ACCESS_ENTRY 3u /* no active access row of the group fits the context, the model and the level */
#define DUGWALEN_NO_SUCH_VIEW 4u    /* the access row names no view for the view type, or one of which no row is active */
#define DUGWALEN_NOT_IN_VIEW 5u     /* no row of the view matches the variable, or the row that decides excludes it */

/* The image or the request is not in order. */
#define DUGWALEN_OUT_OF_RANGE 7u   /* a field of the request or of a row of the image; a torn last part of the variable */
#define DUGWALEN_TABLE_FULL 9u     /* a count of the image is above 16 context, 64 mapping, 64 access or 96 view rows */
#define DUGWALEN_TORN 14u          /* the image is under 8 bytes, or its length not as called for by its counts and row
                                      lengths; a row of it ends too soon or has bytes over */
#define DUGWALEN_NOT_ASCENDING 15u /* a row of the image has an index that is not above that of the row before it */

/* ---- Sizes. ---- */

/* An image that is in order has at most so many bytes. */
#define DUGWALEN_LARGEST_IMAGE 46456u

/* The call takes less than so many bytes of stack. */
#define DUGWALEN_STACK 1024u

/*
 * May the principal read, write or be notified of the variable?
 *
 * image, image_length
 *     The table image, big-endian throughout: four 2-byte counts (context, mapping, access and view rows), a 2-byte
 *     length for each row, the rows. The tables stand in that order; the rows of each ascend strictly by index, which
 *     is the context name; the model and security name; the group, prefix, model and level; the view name and subtree.
 *     A name or mask is a length byte and its octets, a subtree a count byte and 4 bytes for each part, a model 4 bytes,
 *     all else 1 byte. The fields of a row, with their ranges (of a name, mask or subtree: those of its length):
 *         context: context name 0-32
 *         mapping: model 1-2147483647, security name 1-32, group name 1-32, storage 2-5, status 1-2
 *         access:  group name 1-32, context prefix 0-32, model 0-2147483647 (0 any), level 1-3, match 1-2 (exact, prefix),
 *                  read, write and notify view name 0-32 each (empty: no view), storage 2-5, status 1-2
 *         view:    view name 1-32, subtree 1-64, mask 0-16, type 1-2 (included, excluded), storage 2-5, status 1-2
 *     Rows of status 2 (notInService) take no part in a decision.
 * security_model
 *     1 to 2147483647.
 * security_name, security_name_length
 *     1 to 32 octets, with no NUL behind them.
 * security_level
 *     1 noAuthNoPriv, 2 authNoPriv, 3 authPriv.
 * view_type
 *     1 read, 2 write, 3 notify.
 * context_name, context_name_length
 *     0 to 32 octets, with no NUL behind them.
 * variable_name, variable_name_length
 *     1 to 128 sub-identifiers of 4 bytes each, big-endian. The length counts bytes, so it is 4 to 512; one that is no
 *     multiple of 4 is a torn last part.
 *
 * The image is judged first: under 8 bytes 14, counts 9, total length 14, then its rows one after the other, 14 and 7
 * field by field and then 15. Then the request's fields: 7. Then the steps of RFC 3415: 1 to 5, or 0. Whatever the bytes
 * and numbers are, the call returns, with one of the answers above. The numbers are taken in all their 32 bits, so that
 * a level of 257 is 7.
 *
 * The call is C's, by the System V ABI of x86-64, for which alone the archive is built: eleven arguments, a slice being a
 * pointer and then a length. A pointer leads to as many readable bytes as its length says, at any alignment, which nobody
 * changes while the call runs. Where the length is 0 the pointer is not followed, and may be NULL. Nothing is read beyond
 * the lengths. The slices may overlap.
 *
 * The call writes nothing that it is lent and keeps nothing of it. It allocates nothing, calls nothing outside of the
 * archive, has no writable statics and takes no lock: it is reentrant, in threads and in signal handlers, also on one
 * image. It takes less than DUGWALEN_STACK bytes of stack: 459, its return address included, when last measured.
 */
uint32_t dugwalen_is_access_allowed(const uint8_t *image, size_t image_length, uint32_t security_model,
                                    const uint8_t *security_name, size_t security_name_length, uint32_t security_level,
                                    uint32_t view_type, const uint8_t *context_name, size_t context_name_length,
                                    const uint8_t *variable_name, size_t variable_name_length);

#ifdef __cplusplus
}
#endif

#endif
