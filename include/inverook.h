/* Inverook: an SMPP v3.3 message centre with no memory of its own. What it keeps, the caller holds: an account book, a table of messages and
 * a state. Link with libinverook.a, which `rt lib` in crates/inverook writes to its out/ (x86-64 Linux, System V calling convention).
 *
 * No function allocates, does input or output, keeps a pointer after it returned, or has a state of its own. So calls on different tables may
 * run at the same time; calls on one table, and on the state that belongs to it, must follow one another.
 */
#ifndef INVEROOK_H
#define INVEROOK_H

#include <stddef.h>
#include <stdint.h>

#ifdef __cplusplus
extern "C" {
#endif

/* ---- sizes */

#define INVEROOK_BOOK 512u          /* octets of the account book: 8 records of 64 */
#define INVEROOK_TABLE 32768u       /* octets of the table: 8 accounts of 16 places of 256; at first all zero */
#define INVEROOK_RECORD 256u        /* octets of one message record */
#define INVEROOK_STAMP 16u          /* octets of a time stamp, YYMMDDhhmmsstnnp, with no NUL behind it */
#define INVEROOK_SPACE 44u          /* octets of response space that inverook_take needs: the longest reply */
#define INVEROOK_DELIVERY 91u       /* octets of space that inverook_deliver needs: the longest receipt */
#define INVEROOK_NOWHERE 32768u     /* inverook_pick_at, where there is no record */

/* ---- the numbers that a call answers. The first that applies in the call's order is given.
 * Whatever the number but 0: nothing is consumed, nothing written, the table is as it was, and the state
 * that comes back stands for the one that was passed. */

#define INVEROOK_DONE 0u            /* done, or one PDU taken */
#define INVEROOK_MORE 1u            /* more octets needed, none consumed */
#define INVEROOK_NO_SESSION 2u      /* session number above 15 */
#define INVEROOK_WRONG_SIZE 3u      /* book not 512 octets or table not 32,768 */
#define INVEROOK_SHORT_SPACE 4u     /* response space under 44 octets; writing a receipt: space under 91 */
#define INVEROOK_BAD_STAMP 5u       /* time stamp ill formed, or not 16 octets */
#define INVEROOK_UNFIT_SESSION 6u   /* session not open, transmitter or receiver; on opening: not closed */
#define INVEROOK_NO_ACCOUNT 7u      /* account number above 7 */
#define INVEROOK_NO_OUTCOME 8u      /* outcome not 2, 3 or 5 */
#define INVEROOK_ILL_FORMED 9u      /* account concerned is ill formed, or (taking octets, writing a receipt) this session's entry names an
                                     * account above 7 */
#define INVEROOK_NOT_WAITING 10u    /* no waiting message with that id */
#define INVEROOK_NOTHING 11u        /* nothing waiting */
#define INVEROOK_NO_RECEIVER 12u    /* session not a receiver, or a receipt is outstanding on it */
#define INVEROOK_NOTHING_OWED 13u   /* no receipt is owed, or each that is owed is outstanding on another session of the account */

/* ---- the state: 192 octets, aligned to 4, without padding, passed and returned by value.
 * kinds     octets 0-15, of session 0 to 15: 0 closed, 1 open, 2 transmitter, 3 receiver, 4 ended. Any other counts as ended, and comes
 *           back as 4.
 * accounts  octets 16-31, the account (0 to 7) of a transmitter or a receiver. It is not looked at in any other kind, and comes back as 0
 *           there.
 * lasts     octets 32-63, the last id issued for account 0 to 7, in the machine's own order of octets.
 * receipts  octets 64-127, of session 0 to 15: the id of the message whose receipt is outstanding on it, written and not answered yet, or 0
 *           where none is. In the machine's own order of octets, as are the sequences.
 * sequences octets 128-191, of session 0 to 15: the sequence number that this receipt was written with.
 *           Where a session is no receiver or its id is 0, neither of the two is looked at, and both come back as 0.
 * All zero is the fresh state, which goes with a table that is all zero. Every value of every octet is allowed.
 */

#define INVEROOK_CLOSED 0u
#define INVEROOK_OPEN 1u
#define INVEROOK_TRANSMITTER 2u
#define INVEROOK_RECEIVER 3u
#define INVEROOK_ENDED 4u

typedef struct {
    uint8_t kinds[16];
    uint8_t accounts[16];
    uint32_t lasts[8];
    uint32_t receipts[16];
    uint32_t sequences[16];
} inverook_state;

/* 196 octets: number at 0, state at 4. */
typedef struct {
    uint8_t number;
    inverook_state state;
} inverook_moved;

/* 216 octets: number at 0, consumed at 8, written at 16, state at 24. */
typedef struct {
    uint8_t number;
    size_t consumed;
    size_t written;
    inverook_state state;
} inverook_taken;

/* 208 octets: number at 0, written at 8, state at 16. */
typedef struct {
    uint8_t number;
    size_t written;
    inverook_state state;
} inverook_delivered;

/* ---- what every call asks of its caller; nothing of it can be tested here, and the proofs begin behind it:
 * - a pointer with a length points at that many initialised octets, readable during the call, in one object; table and space are also
 *   writable (where the call does not take them as const). A pointer is never NULL, even where its length is 0.
 * - table and space overlap neither each other nor any other buffer of the call. Buffers that are only read may overlap each other.
 * - while a call runs, nobody else writes to its buffers, nor reads table or space where they are writable.
 * Every length is allowed, and so are all octets: a wrong size is a number, not a fault.
 */

/* Opens a closed session. Numbers, in this order: 2, 6. */
inverook_moved inverook_open(inverook_state state, size_t session);

/* Closes a session, whatever it is. A receipt that was outstanding on it is owed again. Number: 2. */
inverook_moved inverook_close(inverook_state state, size_t session);

/* Takes at most one PDU from the octets received on a session. Numbers, in this order: 2, 3, 4, 5, 6, 9, 1.
 * With 0, `consumed` octets have been dealt with: the rest is the caller's to pass again, with what follows. The first `written` octets of
 * space (0, or 16 to 44) are the reply to send; the rest of space is as it was. The state that comes back is the one to pass next.
 * Leading spaces don't count when addresses, system_ids and system_types are compared, and are stored as sent. So of two book records whose
 * names differ in leading spaces alone only the lower can be bound (the higher, where the lower is ill formed), and one whose system_id is
 * spaces only can't be bound at all. */
inverook_taken inverook_take(const uint8_t *book, size_t book_length,
                             uint8_t *table, size_t table_length,
                             inverook_state state,
                             size_t session,
                             const uint8_t *octets, size_t octets_length,
                             const uint8_t *stamp, size_t stamp_length,
                             uint8_t *space, size_t space_length);

/* Writes one receipt, a deliver_sm, for the peer of a receiver. Numbers, in this order: 2, 3, 4, 6, 9, 12, 13. The table does not change.
 * A receipt is owed for a registered message from its outcome or its cancellation on, until a receiver of its account acknowledges it; so
 * long the message keeps its place. When to call: after a receiver was bound, after an outcome, after octets that may have cancelled a
 * message, and after octets on a receiver, which may be the answer to a receipt; until the number is 12 or 13.
 * With 0, the first `written` octets of space (53 to 91) are a whole PDU to send to the session's peer; the rest of space is as it was. Of
 * the receipts that are owed to the account and outstanding on none of its sessions it is the one with the lowest id. The state that comes
 * back is the one to pass next: it has the receipt outstanding on this session, which gets no other until it is answered (12).
 * `sequence` is the caller's to choose, a count that goes up for example. It goes into the PDU, and the peer's answer, a deliver_sm_resp, has
 * it too. The answer comes through inverook_take, like all that the peer sends: with status 0 the receipt is done with; with another status
 * it is owed again; with another sequence it is no answer to this receipt, which stays outstanding. Closing the session, and whatever ends
 * it, makes the receipt owed again: another receiver, or the next one, gets it then, and a bureau may so see a receipt twice. */
inverook_delivered inverook_deliver(const uint8_t *book, size_t book_length,
                                    const uint8_t *table, size_t table_length,
                                    inverook_state state,
                                    size_t session,
                                    uint32_t sequence,
                                    uint8_t *space, size_t space_length);

/* Reports what became of a waiting message: outcome 2 delivered, 3 expired or 5 undeliverable, with an error code of any value. The stamp
 * becomes its final date, and if the message is registered a receipt is owed from now on. Numbers, in this order: 3, 5, 7, 8, 9, 10. The
 * state does not change. */
uint8_t inverook_outcome(const uint8_t *book, size_t book_length,
                         uint8_t *table, size_t table_length,
                         inverook_state state,
                         const uint8_t *stamp, size_t stamp_length,
                         size_t account,
                         uint32_t id,
                         uint8_t outcome,
                         uint8_t error);

/* Whether the account has a message to send. Numbers, in this order: 3, 7, 9, 11. Nothing changes. */
uint8_t inverook_pick_number(const uint8_t *book, size_t book_length,
                             const uint8_t *table, size_t table_length,
                             inverook_state state,
                             size_t account);

/* The octet of the table at which the record to send starts: 4096 * account + 256 * place; its 256 octets lie inside the table. Waiting with
 * priority 1 before priority 0, then lowest id. 32,768 where inverook_pick_number answers anything but 0. Nothing changes. */
size_t inverook_pick_at(const uint8_t *book, size_t book_length,
                        const uint8_t *table, size_t table_length,
                        inverook_state state,
                        size_t account);

/* The same record's 256 octets, copied to the front of space; the rest of space is as it was. How many octets were copied: 256, or 0 where
 * inverook_pick_number answers anything but 0, or where space is under 256 octets: then nothing is written. */
size_t inverook_pick_record(const uint8_t *book, size_t book_length,
                            const uint8_t *table, size_t table_length,
                            inverook_state state,
                            size_t account,
                            uint8_t *space, size_t space_length);

#ifdef __cplusplus
}
#endif

#endif
