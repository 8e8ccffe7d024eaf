/* The functions of the base for C: packet error code, addresses, the codec of the eleven protocols, pools of addresses, device
 * identifiers, the ARP controller's commands and passes, target lists, the model run, and a module's own end of the bus.
 *
 * Every function answers for every input. A buffer is a pointer and a length; NULL goes with the length 0. A function writes only what
 * is said of it, and nothing at all where it answers 1 to 12 or 15 to 21. No function keeps anything: two calls with the same
 * inputs give the same.
 *
 * A truth value is 0 or 1; as an input, any number but 0 is true. A symbol of a trace is a number: 0 to 255 a byte, HB_START, HB_STOP,
 * HB_ACK or HB_NACK; as bytes it is a pair, low byte first. Bytes after the last whole pair of a trace are not read.
 *
 * The library is crates/c_api/out/libc_api.a, which `rt lib` in crates/c_api proves and builds. */
#ifndef HEADBOARDED_H
#define HEADBOARDED_H

#include <stddef.h>
#include <stdint.h>

#ifdef __cplusplus
extern "C" {
#endif

enum { HB_START = 256, HB_STOP = 257, HB_ACK = 258, HB_NACK = 259 };
enum { HB_DEFAULT_ADDRESS = 0x61, HB_HOST_ADDRESS = 0x08, HB_ALERT_RESPONSE_ADDRESS = 0x0c };
enum { HB_LONGEST_TRACE = 525, HB_DECODE_ROOM = 255, HB_BINDINGS_ROOM = 2048, HB_RECORD = 18, HB_MOST_TARGETS = 120 };
enum { HB_NEVER_PICKED = 127 }; /* the last pick of a controller that has picked no address yet */

/* In the list of a pass, where a number of symbols is due: a report that a module is gone, a trace for the first half of a step,
 * and what becomes of the choice that waits then. */
enum { HB_GONE = 65535, HB_CHOOSE = 65534, HB_ISSUE = 65533, HB_DECLINE = 65532 };

/* The numbers answered. */
enum {
    HB_DONE = 0,
    HB_FORBIDDEN = 1,        /* an input that is forbidden */
    HB_TOO_SHORT = 2,        /* a buffer that is too short */
    HB_NO_SYMBOL = 3,        /* of a trace: a number that is no symbol */
    HB_ENDS_EARLY = 4,       /* its end while it still fits */
    HB_UNEXPECTED = 5,       /* a symbol that cannot stand there, and is none of 17, 18 and 19 */
    HB_NOT_ACKNOWLEDGED = 6, /* the target's NACK where its ACK is due */
    HB_PEC_DIFFERS = 7,      /* a PEC that differs */
    HB_AFTER_STOP = 8,       /* symbols after STOP */
    HB_BAD_LENGTH = 9,       /* of a target list: its length */
    HB_MALFORMED = 10,       /* a malformed record */
    HB_REPEATED = 11,        /* a repeated identifier */
    HB_TAKEN = 12,           /* a fixed target on a barred address, or on that of an earlier fixed one */
    HB_NO_FREE_ADDRESS = 13, /* of a pass: no free address */
    HB_PASS_ABANDONED = 14,  /* abandoned */
    HB_NOBODY = 15,          /* of the lookup: nobody is bound there */
    HB_TWO = 16,             /* two claim the address */
    HB_WRONG_ACK = 17,       /* of a trace: the controller's ACK for its NACK, or its NACK for its ACK */
    HB_WRONG_ADDRESS = 18,   /* an address byte with another address, or for the other direction */
    HB_WRONG_COUNT = 19,     /* a count that is not allowed */
    HB_LEFT = 20,            /* of the lookup: whoever was bound there was reported gone */
    HB_NO_COMMAND = 21       /* of a pass: no command outstanding, or no choice to issue or to decline */
};

/* Protocols. */
enum {
    HB_QUICK = 0,
    HB_SEND_BYTE = 1,
    HB_RECEIVE_BYTE = 2,
    HB_WRITE_BYTE = 3,
    HB_WRITE_WORD = 4,
    HB_READ_BYTE = 5,
    HB_READ_WORD = 6,
    HB_PROCESS_CALL = 7,
    HB_BLOCK_WRITE = 8,
    HB_BLOCK_READ = 9,
    HB_BLOCK_PROCESS_CALL = 10
};

/* What the controller hands out: the kind of an hb_command. The first three are commands to send. HB_NONE_FREE and HB_ABANDONED
 * come with the answers HB_NO_FREE_ADDRESS and HB_PASS_ABANDONED, HB_NOT_OUTSTANDING with HB_NO_COMMAND or HB_FORBIDDEN.
 * HB_CHOSEN is no end: an address is chosen for a target, and waits to be issued or declined. */
enum {
    HB_PREPARE = 0,
    HB_GET_UDID = 1,
    HB_ASSIGN = 2,
    HB_ENDED = 3,
    HB_NONE_FREE = 4,
    HB_ABANDONED = 5,
    HB_NOT_OUTSTANDING = 6,
    HB_CHOSEN = 8
};

/* Why an address is chosen: the reason of an hb_command of the kind HB_CHOSEN. HB_CLAIMED comes before the others. */
enum {
    HB_FIXED = 1,  /* the target is fixed, and the address its own */
    HB_KEPT = 2,   /* the target is movable, and its own address is free */
    HB_PICKED = 3, /* it is the first free address after the last pick */
    HB_CLAIMED = 4 /* an Assign that completed now would leave a claim by two */
};

/* A device identifier: the first eight bytes on the wire are the high half, highest byte first. */
typedef struct {
    uint64_t high;
    uint64_t low;
} hb_udid;

/* A set of addresses: bit k of low is address k, bit k of high is address 64 + k. */
typedef struct {
    uint64_t low;
    uint64_t high;
} hb_pool;

/* PEC. Nothing is written. */

/* The PEC of n bytes; of none it is 0. */
uint8_t hb_pec(const uint8_t *s, size_t n);
/* The PEC after one byte more, and after n bytes more, where it was pec before. */
uint8_t hb_pec_byte(uint8_t pec, uint8_t byte);
uint8_t hb_pec_bytes(uint8_t pec, const uint8_t *s, size_t n);

/* Addresses. Nothing is written. */

/* The byte on the wire for a write and for a read. Of a number above 127 only the low seven bits go there. */
uint8_t hb_wire_for_write(uint8_t address);
uint8_t hb_wire_for_read(uint8_t address);
/* The address that a byte on the wire carries, and whether the byte asks for a read. */
uint8_t hb_address_from_wire(uint8_t byte);
uint8_t hb_wire_is_read(uint8_t byte);
/* Whether the number is below 128; is the default, the host's or the alert response address. */
uint8_t hb_is_seven_bit(uint8_t address);
uint8_t hb_is_default(uint8_t address);
uint8_t hb_is_host(uint8_t address);
uint8_t hb_is_alert_response(uint8_t address);
/* Whether the address is reserved: one of the 21 on which no target may stand, not even a fixed one. It does not say what may be
 * given out: for that see hb_is_listed and hb_pool_starting. */
uint8_t hb_is_reserved(uint8_t address);
/* Whether the address is listed: on a row of Table 17 of SMBus 3.3.1. The 21 reserved ones are, and 14 more. A listed address is
 * never picked, and no movable target keeps one. What must not be given out is what hb_pool_starting has, and what is bound. */
uint8_t hb_is_listed(uint8_t address);

/* The codec. */

/* The symbols that the encoder needs room for; 0 where it refuses the protocol, the PEC or a length. Nothing is written. */
size_t hb_trace_length(uint8_t protocol, uint8_t pec, size_t sent, size_t received);

typedef struct {
    uint32_t answer;
    uint32_t symbols;
} hb_written;

/* Encodes a transaction. With 0 the trace stands in the first 2 * symbols bytes of out, and the rest of out is as it was. With 1 or 2
 * out is as it was and symbols is 0. Direction is 1 for a Quick read and otherwise 0; a command that the protocol lacks is 0. */
hb_written hb_encode(uint8_t protocol, uint8_t pec, uint8_t address, uint8_t direction, uint8_t command,
                     const uint8_t *sent, size_t sent_len, const uint8_t *received, size_t received_len,
                     uint8_t *out, size_t out_len);

/* With 0, the transaction: value is 0, and sent and received are the lengths of its data. Else value is the place in the trace, its length
 * with 4, the byte's number with 6, 0 with 1 and 2; the other parts are 0. */
typedef struct {
    uint32_t answer;
    uint32_t address;
    uint32_t direction;
    uint32_t command;
    size_t value;
    size_t sent;
    size_t received;
} hb_decoded;

/* Decodes a trace. Both buffers need HB_DECODE_ROOM bytes. With 0 the data sent stand at the front of one and the data received at the
 * front of the other, and the rest of both is as it was. With any other answer both are as they were. */
hb_decoded hb_decode(uint8_t protocol, uint8_t pec, const uint8_t *trace, size_t trace_len,
                     uint8_t *sent, size_t sent_len, uint8_t *received, size_t received_len);

typedef struct {
    uint32_t answer;
    size_t length;
} hb_part;

/* The last data phase of a transaction that has sent m and received n bytes, which stand at the front of the two buffers: what was
 * received where the protocol receives, else what was sent; nothing for an unknown protocol, or a length that does not belong to it
 * or exceeds its buffer. With 0 these bytes stand in the first length bytes of out, and the rest of out is as it was. With 2 out is
 * too short for them and as it was, and length is 0. */
hb_part hb_last_data(uint8_t protocol, size_t m, size_t n, const uint8_t *sent, size_t sent_len,
                     const uint8_t *received, size_t received_len, uint8_t *out, size_t out_len);

/* Pools. Nothing is written. A number above 127 is no address: no set has it, and adding it or taking it out changes nothing. */

uint8_t hb_pool_has(hb_pool pool, uint8_t address);
hb_pool hb_pool_with(hb_pool pool, uint8_t address);
hb_pool hb_pool_without(hb_pool pool, uint8_t address);
/* The addresses of either set. */
hb_pool hb_pool_union(hb_pool one, hb_pool other);
/* The pool that a pass starts with: the listed addresses and these. Nothing is picked from it. */
hb_pool hb_pool_starting(hb_pool occupied);
/* The barred addresses: the reserved ones and these. Not even a fixed target may stand there. */
hb_pool hb_pool_barred(hb_pool occupied);
/* How many addresses the set has, and the lowest that it does not have: 128 where it has all. */
uint32_t hb_pool_used(hb_pool pool);
uint8_t hb_pool_lowest_free(hb_pool pool);
/* The first address after the last pick, going from 7Fh round to 00h, that the set does not have: 128 where it has all. The last pick
 * itself is tried at the end. After HB_NEVER_PICKED, and after any number above it, the answer is the lowest. */
uint8_t hb_pool_next_free(hb_pool pool, uint8_t last);

/* Device identifiers. */

/* The identifier whose 16 bytes stand from a place on; a byte that is not there counts as 0. Nothing is written. */
hb_udid hb_udid_from_bytes(const uint8_t *s, size_t n, size_t at);
/* Writes the 16 bytes from a place on, and nothing else. A buffer that ends before them is left as it was. */
void hb_udid_put_bytes(hb_udid udid, uint8_t *out, size_t out_len, size_t at);
/* Whether two are the same; whether the first comes before the second, and so wins on the wire; whether the target's address is fixed.
 * Nothing is written. */
uint8_t hb_udid_is_same(hb_udid one, hb_udid other);
uint8_t hb_udid_is_below(hb_udid one, hb_udid other);
uint8_t hb_udid_is_fixed(hb_udid udid);

/* The ARP controller. */

/* The trace of a command that is acknowledged whole: HB_PREPARE, HB_GET_UDID with the reply's data, or HB_ASSIGN of the address to the
 * identifier. With 0 it stands in the first 2 * symbols bytes of out, and the rest of out is as it was. With 1, another kind, a reply
 * above 255 bytes or an HB_ASSIGN of an address above 127, and with 2 out is as it was and symbols is 0. What a kind has no use for is
 * not looked at. */
hb_written hb_put_command(uint8_t kind, hb_udid udid, uint8_t address,
                          const uint8_t *reply, size_t reply_len, uint8_t *out, size_t out_len);

/* What was answered last, the number of an end, the Get UDIDs sent in the pass, and the last pick: the address picked last, in
 * this pass or before it, and HB_NEVER_PICKED if none ever was. The address is that of HB_ASSIGN and HB_CHOSEN; the identifier
 * that of these two and of HB_NONE_FREE; the reason that of HB_CHOSEN. Whatever a kind lacks is 0. With 1 and 21 every part is 0
 * but the answer and the kind, HB_NOT_OUTSTANDING. The part picked is 0 then too, and is no last pick: after 21, that of the pass
 * is told by the list without the entries that were answered so. */
typedef struct {
    uint32_t kind;
    uint32_t answer;
    uint32_t address;
    uint32_t gets;
    uint32_t picked;
    uint32_t reason;
    hb_udid udid;
} hb_command;

/* A pass from its start with these addresses occupied, over a list of entries. The last pick is the one before this pass, or
 * HB_NEVER_PICKED, and stays the same while the list of a pass grows; one above 127 is answered with 1. An entry is one of these,
 * all as pairs:
 *
 *   a number and as many symbols              a trace, for a step
 *   HB_CHOOSE, a number and as many symbols   a trace, for the first half of a step
 *   HB_ISSUE                                  the choice that waits is issued
 *   HB_DECLINE                                the choice that waits is declined
 *   HB_GONE and an address                    a report that the module at the address is gone
 *
 * So a trace of a list has 65531 symbols at most. A longer one can be cut, for its first 526 symbols decide. The list ends where
 * no whole entry is left; a number above 65531 after HB_CHOOSE begins none.
 *
 * The first half is the step without the sending. Where the step is answered with HB_ASSIGN, the first half is answered with
 * HB_CHOSEN: the same target and address, and the reason. The choice waits then, and no command is outstanding. HB_ISSUE is
 * answered with the HB_ASSIGN, and all is as after the step. HB_DECLINE ends the pass with HB_ABANDONED and 14: the target is
 * bound nowhere, and a pick stays the last pick.
 *
 * While a choice waits a trace is answered with 21 and changes nothing, whether for a step or for its first half. If none waits,
 * HB_ISSUE and HB_DECLINE are answered with 21 and change nothing. Reports go on while a choice waits, and leave it waiting.
 * Another start is another list.
 *
 * A report says that the module at the address is gone. Whoever is bound there is bound no longer, the address is left, and it
 * is free unless hb_pool_starting has it. If nobody is bound there, or the address is above 127, nothing changes. What was
 * answered last stays, whatever is reported.
 *
 * An Assign that completes binds its target. It leaves a claim by two instead if hb_pool_barred has the address, if another target
 * is bound there, or if two claim it already. So one fixed target alone on a barred address is a claim too. The reason HB_CLAIMED
 * tells how that stands at the choice; a report before the Assign completes can change it. Nothing is written. */
hb_command hb_pass(hb_pool occupied, uint8_t last, const uint8_t *entries, size_t entries_len);

typedef struct {
    uint32_t answer;
    hb_udid udid;
} hb_found;

/* Who is bound at an address after such a pass: 0 with the identifier. Else the identifier is 0, and the answer is 1 (a last pick
 * or an address above 127), 15, 16 or 20. An address that is left has 20 until it is bound again. The same number tells what a
 * report would do: with 0 it takes the address back, else nothing. Nothing is written. */
hb_found hb_pass_lookup(hb_pool occupied, uint8_t last, const uint8_t *entries, size_t entries_len, uint8_t address);

/* Targets. A record has HB_RECORD bytes: the identifier, the address byte, and the resolved flag. */

typedef struct {
    uint32_t answer;
    size_t place;
} hb_checked;

/* Whether a target list is refused where these addresses are occupied: 0; 9; 10, 11 or 12 with the first such record. 12 is for a
 * fixed target whose address hb_pool_barred has, or is that of an earlier fixed one. Nothing is written. */
hb_checked hb_check_targets(hb_pool occupied, const uint8_t *records, size_t records_len);

/* How a model run ended: 0, or 13 with the identifier that asked; how many addresses are bound and which; the Get UDIDs sent; and the
 * last pick, to be given to the next run, HB_NEVER_PICKED if there never was a pick. A refusal has its record in place, and its other
 * parts are 0. The part picked is 0 then too, and is no last pick to be handed on. */
typedef struct {
    uint32_t answer;
    uint32_t count;
    uint32_t gets;
    uint32_t picked;
    size_t place;
    hb_udid udid;
    hb_pool bound;
} hb_model;

/* A whole pass against targets, with the last pick of the run before, or HB_NEVER_PICKED; one above 127 is answered with 1. With 0 or
 * 13 it writes the last two bytes of each record and the first HB_BINDINGS_ROOM bytes of the binding buffer: the identifier of address
 * a at 16 * a, zeros where nobody is bound; the rest of both is as it was. With 1, 2 and 9 to 12 both are as they were. */
hb_model hb_run_model(hb_pool occupied, uint8_t last, uint8_t *records, size_t records_len,
                      uint8_t *bindings, size_t bindings_len);

/* A module's own end of the bus: what its firmware acknowledges, obeys and supplies at the default address, after SMBus 3.3.1, 6.6.3.
 * Firmware keeps an hb_module. It tells of each event on the bus and keeps what is handed back:
 *
 *   START, repeated too     hb_module_start
 *   a byte received         hb_module_receive, which says ACK or NACK for it
 *   a byte asked for        hb_module_supply, which has a byte to send or none; one who sends and sees another's zero where
 *                           it sends a one calls hb_module_lost at that bit
 *   STOP                    hb_module_stop
 *
 * From STOP to the next START, after hb_module_lost, and after a byte that got NACK, every byte gets NACK and none is sent. What the
 * module does at its own address is not asked here: the first byte of a packet is 0xc2, or 0xc3 in the read of Get UDID, or gets NACK.
 * Firmware that serves its own address looks at the first byte of a packet before it hands it on. */

/* A module between two events. Any numbers in it are answered for, and what a call handed back goes on where it was. Up to
 * resolved the parts outlast a packet:
 *
 *   udid        its identifier; the top two bits are the kind: 0 fixed, 1 persistent, 2 volatile, 3 random
 *   fresh       the vendor-specific part, the last four bytes of the identifier, that a random module takes at its next reset
 *   home        the address that a fixed module has after a reset; a number above 127 is none
 *   valid       Address Valid
 *   address     its address; 0 where Address Valid is clear. Firmware of a persistent module stores it when an Assign has changed it
 *   resolved    Address Resolved
 *
 * The others say where in a packet it stands; a phase above 13 is silent, as 0 is. */
typedef struct {
    hb_udid udid;
    uint32_t fresh;
    uint8_t home;
    uint8_t valid;
    uint8_t address;
    uint8_t resolved;
    uint8_t phase;
    uint8_t place;
    uint8_t pec;
    uint8_t given;
} hb_module;

/* The module after a byte received, and 1 for ACK, 0 for NACK. */
typedef struct {
    hb_module after;
    uint32_t ack;
} hb_heard;

/* The module after it was asked for a byte; 1 where it has one to send, and the byte. Where it has none, drives is 0 and the byte 0xff,
 * which holds nothing down. */
typedef struct {
    hb_module after;
    uint32_t drives;
    uint32_t byte;
} hb_supplied;

/* A module and 0, or a refusal: then every part of the module is 0. */
typedef struct {
    hb_module after;
    uint32_t answer;
} hb_resumed;

/* Power on, Table 9 of SMBus 3.3.1. The address is the one that non-volatile memory holds, or the one it is fixed at; a number above 127
 * is none. A volatile and a random module have none after it, and a random one takes the fresh bytes into its identifier. */
hb_module hb_module_power_on(hb_udid udid, uint8_t address, uint32_t fresh);
/* A module in the middle of its life, as a record of the model describes it, silent as after STOP. The byte is the device address byte,
 * 0xff for Address Valid clear; the flag is Address Resolved. A fixed one is fixed at that address. 10 is for an even byte or a flag
 * above 1, 12 for a fixed one with 0xff. */
hb_resumed hb_module_of_record(hb_udid udid, uint8_t byte, uint8_t flag, uint32_t fresh);
/* Other fresh bytes for the next reset. A random module needs some after power on and after each reset, or it takes the same again. */
hb_module hb_module_refresh(hb_module m, uint32_t fresh);
/* START or repeated START; STOP; arbitration was lost. */
hb_module hb_module_start(hb_module m);
hb_module hb_module_stop(hb_module m);
hb_module hb_module_lost(hb_module m);
/* A byte was received. Prepare To ARP, Reset Device and Assign Address take effect with the byte that is their PEC, if it is right and
 * so gets ACK. */
hb_heard hb_module_receive(hb_module m, uint8_t byte);
/* A byte of a read is asked for: those of Get UDID are the count 17, the identifier, the device address byte and the PEC. */
hb_supplied hb_module_supply(hb_module m);
/* The device address byte: twice the address plus 1, or 0xff where Address Valid is clear. */
uint8_t hb_module_address_byte(hb_module m);

#ifdef __cplusplus
}
#endif

#endif
