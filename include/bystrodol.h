/*
 * bystrodol.h: the EF01 reader core for C99 and C++: the whole reader, four plain services, closing the gaps of a library, cleaning one
 * up, comparing two, and bringing over an older index.
 *
 * There are three archives, for x86-64 Linux, which `tools/archives` writes. They are made for processors that are x86-64-v2, with SSSE3 and
 * SSE4.1, and do not look whether theirs is one. bystrodol_step and bystrodol_line_switch are in
 * target/staticlib/libstep.a; bystrodol_close_gaps, bystrodol_salvage and bystrodol_compare are in target/staticlib/libupkeep.a; all else
 * is in target/staticlib/libboard.a. Link those whose functions you call, in any order, behind your own files. None needs another. Of the C library libstep.a and libboard.a need memcpy and memset,
 * libupkeep.a memmove and memset, and nothing else. Each function is a section of its own: with --gc-sections the linker drops those that
 * are not called, and a firmware that links libstep.a and libboard.a should use it, since each of these has a reader.
 *
 * Nothing is kept between calls: each answer depends on the arguments and the memory that they lead to, and calls on
 * different memory may run at the same time.
 *
 * Each function has an answer for every number, every length and every byte, bad ones included, and that answer is proved
 * (crates/board/src, crates/step/src, crates/upkeep/src). What no proof can see is the caller's part:
 *   - A piece, a run, a content, a room or a lent memory is two arguments, a pointer and a length in bytes. The pointer leads
 *     to that many bytes, all of which the caller may read; where it is not const, also write. They need no alignment.
 *   - Scores, thresholds and a table are the same, save that their length counts 16-bit numbers, in the machine's byte order, and that
 *     their pointer is aligned, as that to an array of uint16_t is.
 *   - Where the length is 0 nothing is read or written, and the pointer may be NULL. No other pointer may be NULL.
 *   - The pointer to the settings, or to the line, leads to a whole, aligned struct. Any bytes may lie in it.
 *   - No two arguments of a call share a byte, but two that are both const.
 *   - No other thread or interrupt handler changes the bytes during the call, nor reads those that are not const. Settings and
 *     line may be written with what they have, even when the call is refused.
 *
 * How a firmware uses it. The reader is a struct bystrodol_line, its settings and its receiver, and the memory that is lent. With
 * the memory go the sensor chip's scores, which Search goes by.
 *   Power-on. Load settings and memory from where they are kept, or start with bystrodol_fresh and zeroed memory. The receiver starts as
 *     zeros: so it holds nothing. Then, first of all, bystrodol_receiver_switch: what was stored may say that a password was given. It
 *     takes any bytes. Then one bystrodol_receive with a piece of 0 bytes: it changes nothing, and its refusal tells whether the stored
 *     settings and index are legal; if it is 3, bystrodol_salvage has what to do. Any password and any address are legal, so keep a sum
 *     of your own over what is stored. Fresh settings have no password: do not fall back to them where the memory has templates. A board
 *     that starts fresh saves at once the zeroed templates, index and notepad, then the mark of bystrodol_bring_over, and then the
 *     settings. So where settings are stored the memory is, too, and a later version's fresh settings never take their place.
 *   A loop. Read what the port has, a piece of any length, and offer it until a call takes nothing and leaves the held count:
 *     then, if it was not refused, all is taken, nothing was answered, and there is nothing left to do. How the bytes were cut
 *     makes no difference, if every call that deals with a Search lends the same scores and thresholds. MEMORY stands for the
 *     arguments from templates to thresholds_length; piece is not NULL here.
 *         do {
 *             held = line.receiver.count;
 *             r = bystrodol_receive(&line, MEMORY, piece, length, reply, sizeof reply);
 *             send(reply, r.length), piece += r.taken, length -= r.taken;
 *         } while (r.taken != 0 || line.receiver.count != held);
 *     At each call send r.length bytes of the reply room, and no more: behind them lie bytes of earlier replies, templates
 *     among them. The next call writes over them, so send ends only when they have left or are copied. A refused call ends
 *     the loop, too. If r.refusal is not 0, stop: the same call will be refused again.
 *   Scores. The sensor chip gives a score for each page, stored or not, and a threshold for each security level. They are lent at every
 *     call, whatever its packet, and may be new each time; no call writes them. A Search sees those of the call that deals with it. Any
 *     other call looks at their lengths alone. The core cannot tell what the chip compared, nor when: scores of the other buffer, or of
 *     pages as they were, are answered as if they were right. So make them anew when a buffer or a page has changed, before the next
 *     call.
 *     A board without a chip that wants Search to find nothing lends scores of 0 and thresholds of 65535. If it lends zeros for both,
 *     every stored page matches with score 0, and a Search finds the lowest stored page of its range: then 00h of Search identifies
 *     nobody, and neither board nor host may take it for that.
 *   Silence. An unfinished packet stays held, and the rest of it is awaited: up to 266 bytes that come next are taken for it,
 *     commands among them. The core knows no time. After a pause of your own choosing, longer than a host ever makes inside a
 *     packet, go on with an empty receiver: memset(&line.receiver, 0, sizeof line.receiver). Nothing is called for that, and
 *     nothing else of the reader changes. Drop all bytes that are held, and not some: what is left of a packet could have a
 *     command in its data. A transfer stays open; the host's next command ends it.
 *   Another host. Call bystrodol_receiver_switch whenever the line goes to another host: without it that one finds the reader
 *     as the last one left it, open and with its buffers. Drop also what is left of a piece and what the port has not handed
 *     over yet, which are the last host's bytes, and let no reply to it go on to the next. Do not call bystrodol_line_switch,
 *     which knows of no receiver: bytes of the last host would stay held, before those of the next.
 *   Your own writes, between two calls. A buffer that you fill gets filled mark 1 and origin BYSTRODOL_NO_PAGE, or, if you copied a stored
 *     page, that page, so that the copy goes with it. A buffer whose filled mark you clear gets no origin. If a transfer is open, close it
 *     first: transfer and got 0, its buffer zeroed. After you have written templates or index, call bystrodol_receiver_switch, as for
 *     another host; bystrodol_close_gaps and bystrodol_salvage need none of this. What is not done here shows later: every call is refused
 *     with 3, or a buffer is wiped with a page that it has nothing to do with, or not wiped with its own.
 *   Saving. The table of commands below says what each one changes.
 *   Upgrade. Templates and notepad stay as they are.
 *     Versions 0.1 to 0.5 had an index of 32 bytes. Where such a one is stored, and not yet brought over, do that first;
 *     bystrodol_bring_over says how.
 *     Versions 0.1 to 0.6 had settings of 20 bytes: the first 20 of today's, every field at its place. Load them so, and give both
 *     buffers no origin:
 *         memcpy(&line.settings, stored, BYSTRODOL_OLD_SETTINGS_BYTES);
 *         line.settings.origin1 = line.settings.origin2 = BYSTRODOL_NO_PAGE;
 *     This may be done at every power-on, whether 20 or 24 bytes are stored, since the line switch makes both none in any case. So a
 *     board may go on storing 20 bytes, and needs no mark for it; and an older version can read them. A struct of yours that was stored
 *     with settings inside has another layout today: what stood behind them, such as a sum, stands 4 bytes further. Of a stored struct
 *     bystrodol_line load the first 20 bytes alone.
 *     Versions 0.1 to 0.7 had no Search: today's bystrodol_receive and bystrodol_step take four arguments more, scores and thresholds
 *     behind buffer 2. The found mark stands where those versions had spare, a byte that the board could use. It is 0 unless the board
 *     wrote to it, and the line switch at power-on makes it 0 in any case. So settings that were stored are loaded as they are; but a
 *     board that used the byte needs another place for what it kept there. An older version takes the found mark for its spare byte.
 *     In versions 0.1 to 0.8 a locked reader answered ReadSysPara 21h; today it carries it out. Functions, structs and all that is stored
 *     are those of 0.8: a board that has that version links with the new archives, and brings nothing over. From then on sensor type,
 *     level and address, as they were stored, are read without the password, so they are no place for a secret. A host that took this
 *     21h for the sign of a lock must send another command, such as TempleteNum, which a locked reader of every version answers 21h. A
 *     board looks at password and verified mark in the settings.
 *     In versions 0.1 to 0.9 the byte at offset 267 of a receiver was padding; today it is the field spare. Sizes, offsets and functions
 *     are those of 0.9, and any byte may lie there, so nothing is brought over. An initialiser that lists a receiver's fields in order
 *     has one more.
 *     Versions 0.1 to 0.10 could not close gaps, versions 0.1 to 0.11 could not salvage, and versions 0.1 to 0.12 could not compare.
 *     Today's other functions, structs and all that is stored are those of 0.10, so nothing is brought over.
 *     An old firmware that is none of these versions may have left bytes in vacant pages and index bits past the end. Bringing over an
 *     index of 32 bytes cleans that up; with one of 128 call bystrodol_salvage once.
 */
#ifndef BYSTRODOL_H
#define BYSTRODOL_H

#include <stddef.h>
#include <stdint.h>

/* The version of this header and of the archives. Another major number, or, while that is 0, another minor one, may need a
 * change of the caller. */
#define BYSTRODOL_VERSION_MAJOR 0
#define BYSTRODOL_VERSION_MINOR 13
#define BYSTRODOL_VERSION_PATCH 0
#define BYSTRODOL_VERSION "0.13.0"

/* ---- lengths, in bytes */

/* A template page, a character buffer, and the notepad; and the most pages. */
#define BYSTRODOL_PAGE_BYTES 512u
#define BYSTRODOL_PAGES_MOST 1000u

/* The index, of every reader; and one that version 0.5 or an older one stored. */
#define BYSTRODOL_INDEX_BYTES 128u
#define BYSTRODOL_OLD_INDEX_BYTES 32u

/* A page of the notepad, and how many there are. */
#define BYSTRODOL_NOTE_BYTES 32u
#define BYSTRODOL_NOTE_PAGES 16u

/* The report of a salvage: one for each bit of the index. That of a comparison has one for each page and for each notepad page. */
#define BYSTRODOL_REPORT_BYTES 1024u

/* The settings that version 0.6 or an older one stored. */
#define BYSTRODOL_OLD_SETTINGS_BYTES 20u

/* The thresholds, in 16-bit numbers: one for each security level. There are as many scores as pages. */
#define BYSTRODOL_THRESHOLDS 5u

/* The least reply room. No reply is longer. */
#define BYSTRODOL_REPLY_BYTES 700u

/* Packets. */
#define BYSTRODOL_FRAME_BYTES 11u         /* a packet beside its content */
#define BYSTRODOL_CONTENT_MOST_DATA 256u  /* the most content of a data packet, identifier 2 or 8 */
#define BYSTRODOL_CONTENT_MOST_OTHER 254u /* the most content of a command or an acknowledge, identifier 1 or 7 */
#define BYSTRODOL_UNFINISHED_MOST 266u    /* the longest packet but for its last byte */
#define BYSTRODOL_HELD_MOST 267u          /* the longest packet: the cells of a receiver, and the run that a caller without one must
                                             be able to hold */

/* ---- why a call was refused, tested in this order; 0 is carried out. Refused, it takes, uses, replies and changes nothing. */

#define BYSTRODOL_ACCEPTED 0u
#define BYSTRODOL_BAD_LENGTH 1u  /* a lent length, the reply room's apart, is not as it must be */
#define BYSTRODOL_BAD_ROOM 2u    /* the reply room is too small */
#define BYSTRODOL_BAD_SETTING 3u /* a setting or the transfer is not legal, an index bit at or above the capacity is set, a
                                    buffer's origin is not legal, or a receiver's count is above 267 */

/* ---- a packet: EF 01, address (4), identifier, length (2), content, sum (2); numbers high byte first. The length counts content
 * and sum: 3 to 256, for identifiers 2 and 8 3 to 258. The sum is identifier, both length bytes and every content byte added,
 * modulo 65536. With another identifier or length EF 01 starts no packet: it is passed over, and what follows is searched. */

#define BYSTRODOL_PACKET_COMMAND 1u
#define BYSTRODOL_PACKET_DATA 2u
#define BYSTRODOL_PACKET_ACKNOWLEDGE 7u
#define BYSTRODOL_PACKET_LAST_DATA 8u

/*
 * ---- commands, the first byte of the content; behind it the parameters, a page or a count as two bytes
 *
 * What a command changes where it is answered 00h. With any other code it changes nothing, but that a wrong password clears the
 * verified mark, and 09h of Search the found mark. A command, whatever it is answered, also ends an open transfer: settings, and its
 * buffer is zeroed. A data packet changes a buffer and the settings, and only while a transfer is open.
 *
 * LoadChar and Store make a page a buffer's origin: the buffer holds that page's template. DeletChar and Empty also wipe every buffer
 * whose origin is among the pages deleted: its bytes are zeroed, its filled mark is 0, its origin none, and UpChar of it is answered 0Dh
 * until it is filled anew. A buffer that came by DownChar and was not stored has no origin, and stays. Three things follow for hosts:
 *   - A buffer cannot be stored again on the page that is its origin: the DeletChar that makes room wipes the buffer, and Store is then
 *     answered 0Ch. To replace that page, download anew, before DeletChar or after it.
 *   - So where the reply to a Store was lost, and the next Store is answered 22h, do not delete the page at once: if the first Store was
 *     carried out, page and buffer would both be gone. Load the page into the other buffer, send UpChar, and compare. If the bytes are
 *     the same, it was; if not, it was not, and DeletChar and Store replace the page.
 *   - A buffer has one origin, the last: loaded from page 3 and stored on page 5, it has 5. DeletChar of page 3 leaves it then.
 *
 * Search looks at the stored pages from start to before start + count, as far as there are pages, whose score is at or above the
 * threshold of the level in force. It finds the highest score, and of equal ones the lowest page: 00h, page, score, these two bytes each.
 * If there is none, as with a count of 0, it is 09h and both are 0: the only code beside 00h with bytes behind it. 00h of Search sets the
 * found mark, 09h clears it; Search's other codes and every other command keep it, and the line switch clears it. Of the buffer that is
 * named only the filled mark is looked at: the board sees to it that the scores are that buffer's.
 *
 * A locked reader carries out three commands:
 *   0Fh ReadSysPara   any host is told the status word, which is 0 then, sensor type, capacity, level, address, size code and baud
 *                     factor, in this order: two bytes each, high byte first, and the address four
 *   13h VfyPwd        the right password unlocks the reader, a wrong one leaves it locked
 *   40h HandShake     as ever
 * Sum, code and length are tested first, as in every reader; any other command that passes is answered 21h and changes nothing. A
 * status word other than 0 is that of a reader that is not locked. 0 is no sign of a lock, since a reader without a password may have it
 * too; 21h in answer to TempleteNum is.
 *
 * Over power-off nothing of a buffer, a mark, an origin or a transfer is worth keeping: the line switch clears them. So save templates
 * and index after Store, DeletChar and Empty, settings after SetSysPara, SetPwd and SetAdder, and the notepad after
 * WriteNotepad; or compare them with what was saved. After Store save the template before the index, and after DeletChar and Empty
 * the index before the templates: so power that fails in between leaves no stored page without its template.
 *
 * In a call that replied, the packet begins at the first EF 01 of the run, and its code stands 9 bytes further; the reply's code is
 * byte 9 of the reply room. A receiver's run is what it held before the call, and behind that what the call took; the call drops
 * it, so look before, or compare what is stored.
 */
#define BYSTRODOL_COMMAND_SEARCH 0x04u           /* buffer, start (a page), count: settings (found mark) */
#define BYSTRODOL_COMMAND_STORE 0x06u            /* buffer, page that is not stored: templates and index; settings (its origin) */
#define BYSTRODOL_COMMAND_LOAD_CHAR 0x07u        /* buffer, page: that buffer; settings (its filled mark and origin) */
#define BYSTRODOL_COMMAND_UP_CHAR 0x08u          /* buffer: nothing */
#define BYSTRODOL_COMMAND_DOWN_CHAR 0x09u        /* buffer: that buffer; settings (its filled mark and origin, the transfer) */
#define BYSTRODOL_COMMAND_DELET_CHAR 0x0Cu       /* page, count: templates and index; buffers with such an origin, and settings */
#define BYSTRODOL_COMMAND_EMPTY 0x0Du            /* templates and index; buffers with an origin, and settings */
#define BYSTRODOL_COMMAND_SET_SYS_PARA 0x0Eu     /* parameter, value: settings (baud, level or size) */
#define BYSTRODOL_COMMAND_READ_SYS_PARA 0x0Fu    /* nothing */
#define BYSTRODOL_COMMAND_SET_PWD 0x12u          /* password: settings (password, verified mark) */
#define BYSTRODOL_COMMAND_VFY_PWD 0x13u          /* password: settings (verified mark) */
#define BYSTRODOL_COMMAND_SET_ADDER 0x15u        /* address: settings (address) */
#define BYSTRODOL_COMMAND_WRITE_NOTEPAD 0x18u    /* notepad page, 32 bytes: notepad */
#define BYSTRODOL_COMMAND_READ_NOTEPAD 0x19u     /* notepad page: nothing */
#define BYSTRODOL_COMMAND_TEMPLETE_NUM 0x1Du     /* nothing */
#define BYSTRODOL_COMMAND_READ_INDEX_TABLE 0x1Fu /* index page n, one byte, 0 to 3, pages 256 n to 256 n + 255: nothing */
#define BYSTRODOL_COMMAND_HAND_SHAKE 0x40u       /* nothing */

/* The bits of the status word, which is the first number that ReadSysPara tells: found mark and verified mark. The others are 0, and
 * while the reader is locked all are. The found mark is kept then, and shows again once the reader is unlocked. A reader without a
 * password is never locked, and shows the found mark whether the verified mark is 0 or 1. */
#define BYSTRODOL_STATUS_FOUND 2u
#define BYSTRODOL_STATUS_VERIFIED 4u

/* The parameters of SetSysPara. */
#define BYSTRODOL_PARAMETER_BAUD 4u
#define BYSTRODOL_PARAMETER_LEVEL 5u
#define BYSTRODOL_PARAMETER_SIZE 6u

/* ---- acknowledge codes, the first byte of an acknowledge's content */

#define BYSTRODOL_CODE_DONE 0x00u
#define BYSTRODOL_CODE_BAD_PACKET 0x01u      /* a wrong sum, a length that is not the command's, or a buffer that is not 1 or 2 */
#define BYSTRODOL_CODE_NOT_FOUND 0x09u       /* Search: no stored page in the range has a score that reaches the threshold */
#define BYSTRODOL_CODE_BAD_PAGE 0x0Bu        /* no such page, or no such index page */
#define BYSTRODOL_CODE_NOTHING_THERE 0x0Cu   /* a buffer that is not filled, or a page that is not stored */
#define BYSTRODOL_CODE_NOTHING_TO_SEND 0x0Du /* UpChar of a buffer that is not filled */
#define BYSTRODOL_CODE_TRANSFER_FAILED 0x0Eu /* a data packet did not fit; the transfer is closed and its buffer zeroed */
#define BYSTRODOL_CODE_BAD_RANGE 0x10u       /* pages to delete that are not there */
#define BYSTRODOL_CODE_WRONG_PASSWORD 0x13u
#define BYSTRODOL_CODE_UNKNOWN_COMMAND 0x19u
#define BYSTRODOL_CODE_BAD_PARAMETER 0x1Au   /* SetSysPara: no such parameter */
#define BYSTRODOL_CODE_BAD_VALUE 0x1Bu       /* SetSysPara: a value outside the parameter's range */
#define BYSTRODOL_CODE_BAD_NOTE_PAGE 0x1Cu   /* no such page of the notepad */
#define BYSTRODOL_CODE_PASSWORD_FIRST 0x21u  /* the reader is locked, and the command is not 0Fh, 13h or 40h */
#define BYSTRODOL_CODE_PAGE_TAKEN 0x22u      /* Store: the page is stored already, and kept; before you delete it, see above */

/* No page: the origin of a buffer that has none, and what a table has for a page that was vacant. */
#define BYSTRODOL_NO_PAGE 0xFFFFu

/*
 * A reader's settings, 24 bytes without a gap. Numbers are in the machine's byte order. They hold no pointer: they may be
 * copied, compared, stored and moved.
 *
 * A mark is 0 or 1. Any other byte there, or a number outside its range, is a setting that is not legal: a call is refused
 * with 3, and every byte stays as it is. The line switch takes them all.
 *
 * The reader is locked if the password is not 0 and verified is 0. A transfer is legal if got is a multiple of the size and
 * below 512, its buffer's filled mark is 0, and the reader is not locked. No transfer is transfer 0 and got 0.
 *
 * BYSTRODOL_NO_PAGE is a legal origin of any buffer. Any other number is one only if it is below the capacity, that page is stored, and
 * the buffer's filled mark is 1. That the buffer has the very bytes of that page no call tests; the core keeps it so.
 *
 * The core only keeps the baud factor; the port is the firmware's. The reply to SetSysPara still goes out at the old speed.
 * When its last byte has left, set the port to 9600 times the new factor, in bits a second.
 */
struct bystrodol_settings {
    uint8_t password[4]; /* high byte first; 0 is no password */
    uint8_t address[4];  /* high byte first; FFFFFFFFh is a fresh reader's */
    uint8_t level;       /* security level, 1 to 5 */
    uint8_t size;        /* size code of data packets: 0, 1, 2, 3 mean 32, 64, 128, 256 bytes; 2 is a fresh reader's */
    uint8_t baud;        /* baud factor, 1 to 12 */
    uint8_t transfer;    /* 0: no transfer; 1 or 2: bytes are being received into that buffer */
    uint16_t sensor;     /* sensor type, any number */
    uint16_t got;        /* bytes of the transfer received so far; 0 where there is none */
    uint8_t verified;    /* 1 once the right password was given */
    uint8_t filled1;     /* 1 if character buffer 1 holds a template: received, loaded, or put there by the firmware */
    uint8_t filled2;     /* the same of character buffer 2 */
    uint8_t found;       /* 1 after a Search that found a page, 0 after one that did not (09h) and after the line switch */
    uint16_t origin1;    /* origin of character buffer 1: the page that holds its template too, or BYSTRODOL_NO_PAGE */
    uint16_t origin2;    /* the same of character buffer 2 */
};

/*
 * A receiver, 270 bytes: the bytes that came and are not dealt with yet, at the front of held. There is no padding in it.
 *
 * All zeros is a receiver that holds nothing. Any bytes may lie in held and in spare; a count above 267 is refused with 3, until the line
 * switch or an empty receiver. After each call and line switch that is not refused, every byte of held from the count on is 0,
 * whatever it was before: no byte of a packet stays behind in it once the packet is dealt with. The piece and the reply room
 * are the caller's to clear.
 */
struct bystrodol_receiver {
    uint8_t held[BYSTRODOL_HELD_MOST];
    uint8_t spare;  /* means nothing; 0 after each call and line switch that is not refused */
    uint16_t count; /* how many are held, 0 to 267; at most 266 after a call that is not refused */
};

/*
 * A line, 294 bytes: the settings and the receiver of one reader. Settings that were stored go into line.settings as they are, those of
 * an older version as Upgrade says. The receiver is not worth storing: after power-on it starts as zeros.
 */
struct bystrodol_line {
    struct bystrodol_settings settings;
    struct bystrodol_receiver receiver;
};

/* What a receiver's call answers, 24 bytes. */
struct bystrodol_received {
    uint8_t refusal; /* 0, or why the call was refused */
    size_t taken;    /* bytes of the piece that were taken; offer the rest again */
    size_t length;   /* bytes of the reply, at the front of the reply room; 0 is silence */
};

/* What a call without a receiver answers, 24 bytes. */
struct bystrodol_answer {
    uint8_t refusal; /* 0, or why the call was refused */
    size_t used;     /* bytes of the run that are dealt with; drop them */
    size_t length;   /* bytes of the reply, at the front of the reply room; 0 is silence */
};

#ifdef __cplusplus
extern "C" {
#endif

/* ---- the whole reader */

/*
 * Fresh settings: password 0, address FFFFFFFFh, level 3, size code 2, baud factor 6, sensor type 0, marks clear, no
 * transfer, no origins. With zeroed memory they are a fresh reader.
 *
 * So a fresh reader takes and sends data packets of 128 bytes. A host that sends 64 sets size code 1 first (SetSysPara, parameter
 * 6), and one that sends 256 code 3; otherwise its first data packet is answered 0Eh. Settings that were stored keep their own
 * code, 0 to 3: neither the line switch nor any call but SetSysPara changes it. So call this only where no settings are stored,
 * and save what it gives.
 */
struct bystrodol_settings bystrodol_fresh(void);

/*
 * The line switch: verified mark, filled marks and found mark 0, no origins, transfer closed, both buffers and the bytes that are held
 * zeroed, count 0. It takes any line, whatever bytes it has. Returns 0, or BYSTRODOL_BAD_LENGTH if a buffer is not 512 bytes long; then
 * nothing changes.
 */
uint8_t bystrodol_receiver_switch(struct bystrodol_line *line, uint8_t *buffer1, size_t buffer1_length,
                                  uint8_t *buffer2, size_t buffer2_length);

/*
 * A call of the receiver: takes what there is room for of a piece, behind the bytes that are held; finds the first packet in all
 * of them, carries it out, and writes the reply; and drops the bytes that are dealt with. It deals with at most one packet, so
 * one call is not enough for a piece: the loop above calls until there is nothing left to do.
 *
 *   line                           the reader's settings and its receiver; changed where they lie
 *   templates, templates_length    512 bytes for each page, 1 to 1000 pages; the length says how many, the capacity
 *   index, index_length            128 bytes; page p is the bit of weight 2^(p mod 8) in byte p / 8
 *   notepad, notepad_length        512 bytes
 *   buffer1, buffer1_length        512 bytes
 *   buffer2, buffer2_length        512 bytes
 *   scores, scores_length          16-bit numbers, one for each page: as many as the capacity
 *   thresholds, thresholds_length  five 16-bit numbers; the n-th is level n's
 *   piece, piece_length            the bytes that came and are not taken yet, any number of them
 *   reply, reply_length            at least 700 bytes; past the reply they keep what they have
 */
struct bystrodol_received bystrodol_receive(struct bystrodol_line *line, uint8_t *templates, size_t templates_length,
                                            uint8_t *index, size_t index_length, uint8_t *notepad,
                                            size_t notepad_length, uint8_t *buffer1, size_t buffer1_length,
                                            uint8_t *buffer2, size_t buffer2_length, const uint16_t *scores,
                                            size_t scores_length, const uint16_t *thresholds, size_t thresholds_length,
                                            const uint8_t *piece, size_t piece_length, uint8_t *reply,
                                            size_t reply_length);

/* ---- the same without a receiver, for a caller that holds the bytes itself; these two are in libstep.a */

/*
 * The line switch: verified mark, filled marks and found mark 0, no origins, transfer closed, both buffers zeroed. It takes any settings,
 * whatever bytes they are. Returns 0, or BYSTRODOL_BAD_LENGTH if a buffer is not 512 bytes long; then nothing changes. The caller
 * drops the bytes that it holds.
 */
uint8_t bystrodol_line_switch(struct bystrodol_settings *settings, uint8_t *buffer1, size_t buffer1_length,
                              uint8_t *buffer2, size_t buffer2_length);

/*
 * A call of the reader: finds the first packet in a run of received bytes, carries it out, and writes the reply. It deals
 * with at most one packet. Used 0, where it is not refused, means that the run is empty, a lone EFh, or an unfinished packet, of
 * at most 266 bytes: a caller that can hold 267 never stands still. The caller sends the reply, drops used bytes from the front,
 * and while used is not 0 calls again with what is left.
 *
 *   settings                       the reader's; changed where they lie
 *   run, run_length                the bytes received and not yet dropped
 *   the others                     as for bystrodol_receive
 */
struct bystrodol_answer bystrodol_step(struct bystrodol_settings *settings, uint8_t *templates, size_t templates_length,
                                       uint8_t *index, size_t index_length, uint8_t *notepad, size_t notepad_length,
                                       uint8_t *buffer1, size_t buffer1_length, uint8_t *buffer2,
                                       size_t buffer2_length, const uint16_t *scores, size_t scores_length,
                                       const uint16_t *thresholds, size_t thresholds_length, const uint8_t *run,
                                       size_t run_length, uint8_t *reply, size_t reply_length);

/* ---- four plain services */

/*
 * The sum of all bytes of a run, modulo 65536. The sum of an empty run is 0.
 *
 *   run, run_length   the bytes to add
 */
uint16_t bystrodol_sum(const uint8_t *run, size_t run_length);

/*
 * How many bytes from the front of a run of received bytes are dealt with: a whole packet and what stands before it,
 * or what can start no packet. The caller drops that many. It is never more than run_length.
 *
 * 0 means that the run is empty, a lone EFh, or the front of a packet that is not all there yet, at most 266 bytes:
 * receive more first. The packet's address and sum are not looked at.
 *
 *   run, run_length   the bytes received and not yet dropped
 */
size_t bystrodol_used(const uint8_t *run, size_t run_length);

/*
 * Builds a packet at the front of the room. Returns the packet's length, content_length + 11. Room past the packet keeps
 * its bytes.
 *
 * Returns 0 and writes nothing if identifier is not 1, 2, 7 or 8, if content_length is not 1 to 256 for identifiers 2 and 8, or
 * not 1 to 254 for 1 and 7, or if room_length is below content_length + 11.
 *
 *   address                   the module's address as a number; FFFFFFFFh is a fresh reader's
 *   identifier                BYSTRODOL_PACKET_COMMAND, _DATA, _ACKNOWLEDGE or _LAST_DATA
 *   content, content_length   the bytes between the length and the sum
 *   room, room_length         where the packet goes
 */
size_t bystrodol_build(uint32_t address, uint8_t identifier, const uint8_t *content, size_t content_length,
                       uint8_t *room, size_t room_length);

/*
 * The number of set bits in an index, 0 to 1024: in the index of a legal reader the number of pages stored.
 * Returns BYSTRODOL_NO_COUNT if index_length is not 128.
 *
 *   index, index_length   the index; page p is the bit of weight 2^(p mod 8) in byte p / 8
 */
uint16_t bystrodol_count(const uint8_t *index, size_t index_length);

#define BYSTRODOL_NO_COUNT 0xFFFFu

/* ---- offline, between two calls; these three are in libupkeep.a */

/*
 * Closes the gaps of a library: the stored templates go to pages 0, 1, 2 and up, in their old order. Every other page is zeroed, whatever
 * lay in it. The index has the bits of the first pages, as many as there are templates, and no other. The table gets each old page's new
 * page, or BYSTRODOL_NO_PAGE where the page was vacant. The origins follow their templates. Nothing else of the settings changes, and an
 * open transfer goes on. Buffers and notepad are not lent. It works on a locked reader, too, and no host can start it by a packet. Called
 * again, it moves nothing, and the table has each stored page's own number.
 *
 * Returns 0; or BYSTRODOL_BAD_LENGTH if a length is not as below; or else BYSTRODOL_BAD_SETTING where bystrodol_step would. If it is
 * refused, nothing changes, and the table is not written.
 *
 * Before it. Commands and replies name pages by their old numbers. So wait until the last reply has left, and no byte is held, left of a
 * piece, or in the port. If an unfinished packet is held, wait for the pause of Silence and drop it. From then on drop every byte that
 * comes, until the hosts are told. And save all that has changed: the templates and the index that are kept over power-off must be those
 * that are lent.
 *
 * Hosts. After it the pages have other numbers. Make the chip's scores anew. No packet tells a host: once the library is saved, give it
 * the table by a way of your own. It changes every page number that it has by it, those of an earlier Search too; `pages` is the capacity,
 * and whoever has a page that was vacant gets BYSTRODOL_NO_PAGE:
 *         for (i = 0; i < people; i++) {
 *             uint16_t old = person[i].page;
 *             person[i].page = old < pages ? table[old] : BYSTRODOL_NO_PAGE;
 *         }
 *   A table is used once. So number the closings, and let each host save the number of the last table that it used with its pages, in one
 *   write. Take no command from a host that is behind, and do not call this again before every host has used the table: the next table
 *   takes its place. The table tells which pages were stored, which a locked reader keeps to itself: give it to nobody who may not know.
 *
 * Saving: templates and index. Of the settings only the origins have changed, and the line switch at power-on makes them none. Lend RAM,
 * such as the memory that you lend to bystrodol_receive, and never a memory that keeps its bytes over power-off: power that fails inside
 * of the call leaves a library half moved there. Then go in this order, each step ended before the next, and call no function of this
 * header until step 4 is done. `kept` stands for the templates where they are kept. The order needs a memory in which a write that fails
 * spoils only the 512 bytes that it writes; if yours erases larger blocks, write the library to a second area, and switch over by one
 * sign.
 *   1. Save the table, with a sum over it, and a number `next` of 0; then a sign that the library is being moved.
 *   2. Move the pages of kept:
 *         for (old = 0; old < pages; old++) {
 *             uint16_t to = table[old];
 *             if (to == BYSTRODOL_NO_PAGE || to < next) continue;
 *             if (to != old) copy page old of kept to page to of kept;
 *             save next = to + 1;
 *         }
 *   3. Let n be the number of entries of the table that are not BYSTRODOL_NO_PAGE. Save an index with bits 0 to n - 1 set and all others 0,
 *      and zero the pages of kept from n on. Make your sum over both anew.
 *   4. Save the table for the hosts, with the closing's number, at a place of its own; then take the sign away. The table of step 1 stays
 *      as it is until the sign is gone.
 *   A write of `next` or of the sign that fails must leave the old value: write to two places in turn, say, each with a sum. At power-on,
 *   if the sign is there, first do steps 2 to 4 with the saved table and the saved `next`; then go on as ever. If it is not, nothing was
 *   moved or all is done. While it is there, your sum over templates and index does not hold, and no older version may be started.
 *   No template is lost: a page goes down or stays, and those that are still to go lie above all that were written. So until a page stands
 *   whole at its new place, it stands whole at its old one; `next` tells which, since a page that was moved must not be moved again.
 *
 *   settings                       the reader's, with a receiver &line.settings; only origin1 and origin2 change
 *   templates, templates_length    512 bytes for each page, 1 to 1000 pages
 *   index, index_length            128 bytes
 *   table, table_length            16-bit numbers, one for each page: as many as the capacity. What lay there does not matter
 */
uint8_t bystrodol_close_gaps(struct bystrodol_settings *settings, uint8_t *templates, size_t templates_length,
                             uint8_t *index, size_t index_length, uint16_t *table, size_t table_length);

/* What a salvage did, by page and bit. */
#define BYSTRODOL_UNCHANGED 0u
#define BYSTRODOL_BIT_CLEARED 1u /* at or above the capacity: the bit was set */
#define BYSTRODOL_PAGE_ZEROED 2u /* below the capacity: the page is vacant, and had a byte that was not 0 */

/*
 * Cleans up a library of an old firmware, which left bytes in vacant pages or index bits past the end: every index bit at or above the
 * capacity is cleared, and every vacant page is zeroed. Nothing else changes: no bit below the capacity, and no byte of a stored page.
 * The report gets one of the three numbers above for each index bit. Called again, it changes nothing, and the report is all 0.
 *
 * Returns 0, or BYSTRODOL_BAD_LENGTH if a length is not as below; then nothing changes, and the report is not written. It is never
 * refused with 3: any bytes may lie in the index.
 *
 * Settings that only a bit past the end made illegal are legal afterwards. Of a legal reader no host notices it: no command looks at a
 * vacant page. The report tells which pages are vacant and had bytes, which a locked reader keeps to itself: give it to nobody who may
 * not know.
 *
 * When. Once, after an upgrade from such a firmware. And where the piece of 0 bytes at power-on is refused with 3. Then offer that piece
 * first with a copy of the index that is all zeros. If that is refused with 3, too, level, size code or baud factor is out of range,
 * since the line switch makes all other settings legal: write a legal one there, and save it. If it is not, a bit past the end is set:
 * call this, save, and offer the piece again. It may be called between any two calls: power that failed while a DeletChar was saved may
 * have left bytes in a vacant page, too.
 *   The bytes of a vacant page are gone for good, and a page whose bit was lost is vacant. So do not call this where a sum of yours
 *   tells that the index is damaged; and lend as many pages as the library has, since the bits of others are cleared.
 *
 * Saving: the index, and of the templates the pages that the report has BYSTRODOL_PAGE_ZEROED for, in any order. What is left depends on
 * the bits below the capacity and the bytes of stored pages alone, and neither changes. So wherever power fails, in the call or while
 * you save, call this again with what is kept then: templates and index come to the same. So it may be lent the very memory that keeps
 * its bytes over power-off, if that is written as RAM is. A write that fails may spoil the vacant page that it writes, but no stored
 * page, and must leave each byte of the index old or new. If yours erases larger blocks, write to a second area, and switch over by one
 * sign.
 *   A sum over templates or index: check it, and then save a sign, as that of bystrodol_close_gaps. Behind the last write save the new
 *   sum, and then take the sign away. If it is there at power-on, call this again before you look at the sum, which need not hold then.
 *   The report is that of one call. A board that must know all lends copies, and has a place for the report that is zeroed at first:
 *   after each call, before all else, it saves there what lies there joined by | with the report.
 *
 *   templates, templates_length    512 bytes for each page, 1 to 1000 pages
 *   index, index_length            128 bytes
 *   report, report_length          1024 bytes. What lay there does not matter
 */
uint8_t bystrodol_salvage(uint8_t *templates, size_t templates_length, uint8_t *index, size_t index_length,
                          uint8_t *report, size_t report_length);

/* How two readers differ, by page. */
#define BYSTRODOL_SAME 0u        /* a page that is vacant in both, or stored in both with the same bytes; or notes with the same bytes */
#define BYSTRODOL_ONLY_FIRST 1u  /* a page that only the first has */
#define BYSTRODOL_ONLY_SECOND 2u /* a page that only the second has */
#define BYSTRODOL_DIFFERENT 3u   /* a page that is stored in both with other bytes; or notes with other bytes */

/*
 * Tells how two libraries of as many pages differ, and their notepads. The report gets one of the four numbers above for each page, in
 * order, and behind them, for each of the 16 notepad pages, BYSTRODOL_SAME or BYSTRODOL_DIFFERENT: report[p] is that of page p, and
 * report[pages + n] that of notepad page n. The bytes of vacant pages do not count. With first and second exchanged the report has 1 for 2
 * and 2 for 1, and is the same otherwise.
 *
 * Returns 0; or BYSTRODOL_BAD_LENGTH if a length is not as below; or else BYSTRODOL_BAD_SETTING if an index bit at or above the capacity
 * is set, in the first or in the second. If it is refused, the report is not written.
 *
 * When. Between any two calls, and before and after a reader is replaced. With the old reader as the first, the new one has it all where
 * no entry is 1 or 3; where one is 2 it has more. Templates and notes alone are compared. Settings and buffers are not lent: password,
 * address, level and origins may be the same or not, and the readers locked or not. No host can start it by a packet.
 *   Both readers are only read. So lend each one's own memory, where it lies or where it is kept, if that is read as RAM is. Both stay as
 *   they are, wherever power fails, and there is nothing to save. The six may share bytes: a reader may be compared with itself, and then
 *   the report is all 0. The report shares no byte with them.
 *   Pages are compared by their numbers. Where the gaps of one library alone were closed, the report is of little use: close those of a
 *   copy of the other first. A salvage changes no entry; if the call is refused with 3, salvage the library with the bit past the end, or
 *   a copy. An index of 32 bytes is brought over first, to a memory of its own.
 *   Readers of unequal pages. Lend for the smaller one as many pages as the larger has, its own in front and zeros behind them, and its
 *   index as it is. But first see that this has no bit at or above the smaller one's own capacity, as at power-on or by a salvage with as
 *   many pages as it has: with more such a bit would pass for a stored page.
 *   The report tells which pages are stored, and whether templates and notes are the same, which a locked reader keeps to itself: give it
 *   to nobody who may not know. How long the call takes may tell as much.
 *
 *   index1, index1_length          128 bytes; the first reader's, as the next two
 *   notepad1, notepad1_length      512 bytes, 32 for each page
 *   templates1, templates1_length  512 bytes for each page, 1 to 1000 pages
 *   index2, index2_length          128 bytes; the second reader's, as the next two
 *   notepad2, notepad2_length      512 bytes
 *   templates2, templates2_length  as many bytes as templates1
 *   report, report_length          a byte for each page, and 16 more. What lay there does not matter
 */
uint8_t bystrodol_compare(const uint8_t *index1, size_t index1_length, const uint8_t *notepad1, size_t notepad1_length,
                          const uint8_t *templates1, size_t templates1_length, const uint8_t *index2,
                          size_t index2_length, const uint8_t *notepad2, size_t notepad2_length,
                          const uint8_t *templates2, size_t templates2_length, uint8_t *report, size_t report_length);

/* ---- an index that version 0.5 or an older one stored */

/*
 * Brings an index of 32 bytes over to one of 128: its bytes, and 96 zero bytes behind them. Each page keeps its bit, and
 * bystrodol_count gives the number of pages that it gave before. Returns 0, or BYSTRODOL_BAD_LENGTH if a length is another; then
 * nothing is written. What lay in the new index does not matter.
 *
 * The bytes cannot tell whether this was done. Done again later, with the 32 bytes that were stored before, it would take every page
 * stored since out of the index, and put every page deleted since back into it, with zeros for a template. So the board keeps a mark
 * of its own, and goes in this order, each step ended before the next, and no other call made before the mark is there:
 *   0. Load the old index, BYSTRODOL_OLD_INDEX_BYTES, from where it was stored, and all else as at power-on. BYSTRODOL_INDEX_BYTES was
 *      32 then: a struct that was stored with it has another layout now. If the 32 bytes lie in RAM where the 128 are to be, copy them
 *      away first. If you keep a sum over templates, check it and save the sign that bystrodol_salvage speaks of, unless that is there.
 *   1. Bring over.
 *   2. Call bystrodol_salvage with the new index and as many pages as before: with more a stray bit above the old ones would pass for a
 *      stored page. Lend it the templates where they are kept; or a copy, and save the report, if you keep it, and the pages that were
 *      zeroed.
 *   3. Try the vault as at power-on, with as many pages as before: the line switch, and a piece of 0 bytes. If that is refused with 3,
 *      level, size code or baud factor is out of range: write a legal one there, save it, and begin with 0.
 *   4. If there are to be more pages, up to 1000: zero them where they are kept, behind the old ones, which keep their places.
 *   5. Save the new index at a place of its own; and your sums anew, over all pages.
 *   6. Save the mark, so that it is there wholly or not at all; then take the sign away, and power on as ever, with all pages.
 * From the mark on load the new index, and do none of these steps again. Power that fails before the mark: begin with 0. The old index
 * lies where it was, and every stored page too; vacant and new pages may be zeroed or half zeroed, and all comes to the same.
 * To go back to an older version with at most 256 pages, save first the front 32 bytes of the index where the old index lay, with the
 * bits at or above its capacity cleared; then take the mark away. The pages above are lost to it.
 *
 *   old, old_length       the index as it was stored, 32 bytes
 *   index, index_length   where the new one goes, 128 bytes; the two share no byte
 */
uint8_t bystrodol_bring_over(const uint8_t *old, size_t old_length, uint8_t *index, size_t index_length);

#ifdef __cplusplus
}
#endif

#endif
