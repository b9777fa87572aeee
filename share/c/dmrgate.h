/* dmrgate.h: the base station of dmrgate, and the codes of DMR, for programs that are written in C or in what calls C.
 *
 * A program keeps a dmr_station, whose zeros are no station, and passes it to each call:
 *
 *     dmr_station station = {0};
 *     dmr_settings settings = {.llid = 1, .call_hang = 3, .channel_hang = 5, .colour = 1, .queue = 9};
 *     if (dmr_station_open(&station, &settings) == DMR_DONE) ..
 *     dmr_station_exchange(&station, uplink, downlink);
 *     dmr_station_close(&station);
 *
 * What each call does is proved. Nothing checks what the program owes:
 *
 *   - Each pointer leads to a whole object of its type, which nothing else reads or writes while the call lasts. No two of a call
 *     overlap, and none is null, not even one to no octets at all.
 *   - A bool is 0 or 1.
 *   - A dmr_station is zeros until it is opened. It is read and written by these calls alone, and never copied.
 *   - A station is in one call at a time, and stays in the thread that opened it.
 *   - malloc, realloc and free are of one allocator, which aligns each block for any object.
 *   - No call is made from a signal handler, nor from a forked child of a program with threads.
 *
 * The codes further below take no memory, keep nothing, and may be called from any thread.
 */
#ifndef DMRGATE_H
#define DMRGATE_H

#include <stdbool.h>
#include <stddef.h>
#include <stdint.h>

#ifdef __cplusplus
extern "C" {
#endif

/* 1. The base station. */

/* What a call answers. Where it isn't DMR_DONE the station is as it was, and nothing is written. */
enum {
    DMR_DONE = 0,
    DMR_NO_STATION = 1,    /* the station isn't open */
    DMR_AT_LIMIT = 2,      /* 2^29 frames were exchanged, or 2^32 - 1 datagrams offered */
    DMR_NO_MEMORY = 3,     /* malloc gave none */
    DMR_BAD_SETTING = 4,   /* a setting is out of its range */
    DMR_BAD_SLOT = 5,      /* a slot is neither 1 nor 2 */
    DMR_NO_ROOM = 6,       /* a datagram has over 65,535 octets */
    DMR_NONE_RECEIVED = 7  /* all that was received is taken */
};

/* A base station between two frames, or none. */
typedef struct { void *at; } dmr_station;

/* What a station is set to. */
typedef struct {
    uint32_t llid;          /* the gateway's address on the air, 1 to 16,777,215 */
    uint16_t call_hang;     /* for how many frames a call holds its slot, at most channel_hang */
    uint16_t channel_hang;  /* for how many frames the repeater stays on the air */
    uint8_t colour;         /* the colour code, 0 to 15 */
    uint8_t queue;          /* how many datagrams may wait for each slot, 1 to 64 */
} dmr_settings;

/* A slot of the uplink: a burst where heard, and else nothing, and the burst isn't read. */
typedef struct { bool heard; uint8_t burst[33]; } dmr_uplink_slot;

/* A slot of the downlink: a CACH and a burst where sent, and else zeros. */
typedef struct { bool sent; uint8_t cach[3]; uint8_t burst[33]; } dmr_downlink_slot;

/* What was received, without its octets. */
typedef struct {
    uint32_t source;  /* the address of its source, of 24 bits */
    uint16_t length;  /* how many octets it has */
    uint8_t slot;     /* the slot in which it came, 1 or 2 */
    uint8_t kind;     /* 0 a datagram, 1 short data, 2 a status */
} dmr_receipt;

/* As many octets are received at once at most. */
enum { DMR_RECEIPT_LIMIT = 3044 };

/* What a station has done so far. */
typedef struct {
    uint32_t frames;     /* frames of the downlink, two slots each */
    uint32_t repeated;   /* slots that repeated a burst */
    uint32_t offered;    /* datagrams that were offered */
    uint32_t refused;    /* datagrams that the gateway refused */
    uint32_t received;   /* what was taken of what the gateway received */
    uint32_t delivered;  /* confirmed packets that were delivered */
    uint32_t sent;       /* unconfirmed packets that were sent */
    uint32_t given_up;   /* packets that had no try left */
} dmr_counts;

/* Makes a station of these settings that has heard and sent nothing, and frees the one that was there. It alone takes memory.
 * Answers DMR_DONE, DMR_BAD_SETTING or DMR_NO_MEMORY. */
uint8_t dmr_station_open(dmr_station *station, const dmr_settings *settings);

/* Frees a station, if there is one. */
void dmr_station_close(dmr_station *station);

/* Offers a datagram of so many octets to the gateway, before the frame in which it is due. It is sent in this slot, as a confirmed
 * packet or not, and at rate 1 (full) or at rate 1/2. The gateway sends at most 1,400 octets; whether it refuses is counted.
 * Answers DMR_DONE, DMR_NO_STATION, DMR_BAD_SLOT, DMR_AT_LIMIT or DMR_NO_ROOM. */
uint8_t dmr_station_offer(dmr_station *station, uint8_t slot, bool confirmed, bool full, const uint8_t *octets, size_t length);

/* Takes a frame of the uplink, slot 1 first, and gives the frame of the downlink that is decided then. What is heard goes out six
 * frames later. Answers DMR_DONE, DMR_NO_STATION or DMR_AT_LIMIT. */
uint8_t dmr_station_exchange(dmr_station *station, const dmr_uplink_slot uplink[2], dmr_downlink_slot downlink[2]);

/* Takes what the gateway received next in the frame that was exchanged last. What isn't taken goes with the next frame. There is
 * room for DMR_RECEIPT_LIMIT octets. Answers DMR_DONE, DMR_NO_STATION or DMR_NONE_RECEIVED. */
uint8_t dmr_station_take_received(dmr_station *station, dmr_receipt *receipt, uint8_t octets[DMR_RECEIPT_LIMIT]);

/* Tells what the station has done so far. Answers DMR_DONE or DMR_NO_STATION. */
uint8_t dmr_station_counts(dmr_station *station, dmr_counts *counts);

/* 2. The codes of DMR (ETSI TS 102 361-1). A word of bits is the number that they spell, the first of them the highest. Of a number
 * only as many of its lowest bits are read as the word has. A call that answers false has written nothing. */

/* The block codes. Each call of the first kind gives the word that begins with the information. Each of the second kind gives the
 * word that is so near to what was received, where there is one. Annex B.3. */

/* The Golay code (20,8): 8 bits of information in words of 20; 3 wrong bits are undone. */
uint32_t dmr_golay20_encode(uint32_t information);
bool dmr_golay20_decode(uint32_t received, uint32_t *word);

/* The quadratic residue code (16,7): 7 bits of information in words of 16; 2 wrong bits are undone. */
uint32_t dmr_residue16_encode(uint32_t information);
bool dmr_residue16_decode(uint32_t received, uint32_t *word);

/* The Hamming code (7,4): 4 bits of information in words of 7; 1 wrong bit is undone. */
uint32_t dmr_hamming7_encode(uint32_t information);
bool dmr_hamming7_decode(uint32_t received, uint32_t *word);

/* The Hamming code (13,9): 9 bits of information in words of 13; 1 wrong bit is undone. */
uint32_t dmr_hamming13_encode(uint32_t information);
bool dmr_hamming13_decode(uint32_t received, uint32_t *word);

/* The Hamming code (15,11): 11 bits of information in words of 15; 1 wrong bit is undone. */
uint32_t dmr_hamming15_encode(uint32_t information);
bool dmr_hamming15_decode(uint32_t received, uint32_t *word);

/* The Hamming code (16,11): 11 bits of information in words of 16; 1 wrong bit is undone. */
uint32_t dmr_hamming16_encode(uint32_t information);
bool dmr_hamming16_decode(uint32_t received, uint32_t *word);

/* The Hamming code (17,12): 12 bits of information in words of 17; 1 wrong bit is undone. */
uint32_t dmr_hamming17_encode(uint32_t information);
bool dmr_hamming17_decode(uint32_t received, uint32_t *word);

/* The block product turbo code (196,96). Its 196 bits are the first of 25 octets. The last four bits are zeros where they are
 * written, and aren't read. dmr_bptc_decode corrects columns and then rows. dmr_read_info takes the bits out of a data burst.
 * Annex B.1.1. */
void dmr_bptc_encode(const uint8_t information[12], uint8_t written[25]);
bool dmr_bptc_decode(const uint8_t received[25], uint8_t information[12]);
void dmr_read_info(const uint8_t burst[33], uint8_t received[25]);

/* The Reed-Solomon code (12,9): the parity of nine octets, and the word that differs from twelve in at most one. Annex B.3.6. */
void dmr_rs_parity(const uint8_t octets[9], uint8_t parity[3]);
bool dmr_rs_correct(uint8_t octets[12]);

/* The cyclic redundancy checks: CRC-CCITT of octets; CRC-9 of a block's octets and the 7 bits of its serial number; CRC-8 of 28
 * bits; and CRC-32 of octets in pairs, false where one has no other. Annexes B.3.7 to B.3.10. */
uint16_t dmr_ccitt(const uint8_t *octets, size_t length);
uint16_t dmr_crc9(const uint8_t *octets, size_t length, uint8_t serial);
uint8_t dmr_crc8(uint32_t bits);
bool dmr_crc32(const uint8_t *octets, size_t length, uint32_t *check);

/* Blocks of twelve octets that are sealed by a masked CRC-CCITT for a use: 0 a PI header, 1 a control signalling block, and any
 * other a data header. Annexes B.3.8 and B.3.12. */
void dmr_seal(const uint8_t octets[10], uint8_t block_use, uint8_t block[12]);
bool dmr_opens(const uint8_t block[12], uint8_t block_use);

/* Embedded link control: the four fields of 32 bits that carry nine octets, for four voice bursts in turn, and the octets that four
 * fields carry. dmr_extract answers 0, or 1 for an unreadable row, 2 for odd columns and 3 for a wrong checksum, and then nothing is
 * written. Annex B.2.1. */
void dmr_embed(const uint8_t octets[9], uint32_t fields[4]);
uint8_t dmr_extract(const uint32_t fields[4], uint8_t octets[9]);

/* Full link control: who calls whom. dmr_lc_write gives the twelve octets that the product code carries, for a use: 0 a voice LC
 * header, and any other a terminator with LC. Of the opcode only the 6 lowest bits are read. dmr_lc_read reads it of the bits that
 * dmr_read_info gives, and corrects one wrong octet behind the product code. It answers 0, or 1 for no word of the product code and
 * 2 for a wrong parity, and then nothing is written. Clause 7.1, annexes B.3.6 and B.3.12. */
typedef struct {
    bool protect;     /* PF: the contents are protected */
    bool reserved;    /* the reserved bit */
    uint8_t flco;     /* the opcode, of 6 bits */
    uint8_t fid;      /* the feature set */
    uint8_t body[7];  /* what the opcode gives its meaning */
} dmr_link_control;
void dmr_lc_write(const dmr_link_control *lc, uint8_t lc_use, uint8_t message[12]);
uint8_t dmr_lc_read(const uint8_t received[25], uint8_t lc_use, dmr_link_control *lc);

/* The four fragments of 17 bits that carry a Short LC, of 4 bits of opcode and 24 of body. Annex B.2.3. */
void dmr_short_lc(uint8_t slco, uint32_t body, uint32_t fragments[4]);

/* The CACH before a downlink burst, of AT, TC, two bits of LCSS and a fragment of the Short LC. Clause 9.1.4 and annex B.4.1. */
void dmr_cach(bool at, bool tc, uint8_t lcss, uint32_t fragment, uint8_t octets[3]);

/* What a burst of 33 octets says: its sync word, within three bits; the slot type of a data burst, three wrong bits undone; the
 * embedded signalling of a voice burst, two wrong bits undone; and the 32 bits of its embedded field. Clauses 7.1.3 and 9.1. */
typedef struct { uint8_t side; bool voice; } dmr_sync;                    /* side: 0 a base station, 1 a mobile station */
typedef struct { uint8_t colour, kind; } dmr_slot_type;                   /* colour code and data type */
typedef struct { uint8_t colour; bool pi; uint8_t lcss; } dmr_emb;        /* colour code, PI and LCSS */
bool dmr_read_sync(const uint8_t burst[33], dmr_sync *sync);
bool dmr_read_slot_type(const uint8_t burst[33], dmr_slot_type *slot_type);
bool dmr_read_emb(const uint8_t burst[33], dmr_emb *emb);
uint32_t dmr_read_embedded(const uint8_t burst[33]);

/* What a burst is read as, with zeros where it has no such field. */
typedef struct {
    uint8_t side;         /* 0 a base station, 1 a mobile station */
    uint8_t colour;       /* the colour code */
    uint8_t kind;         /* the data type of a data burst */
    uint8_t information;  /* what it holds: 0 the octets of message, 1 bits too damaged, 2 bits in another code or in none */
    bool pi;              /* PI of embedded signalling */
    uint8_t lcss;         /* LCSS of embedded signalling */
    uint8_t message[12];  /* what the product code holds */
} dmr_reading;

/* Answers 1 for data, 2 for data whose slot type is too damaged, 3 for voice with a sync word, 4 for voice with embedded
 * signalling, and 0 for none of these. It writes in any case. Clauses 4.2.2 and 9.1. */
uint8_t dmr_read_burst(const uint8_t burst[33], dmr_reading *reading);

#ifdef __cplusplus
}
#endif

#endif
