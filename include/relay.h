/* The edit relay for C: a station and a group that the host holds as bytes, with all their calls; a
   group's bulletins; the frame check; for planners the forecast, the merge of link logs, a page of
   questions and the link contest; the load generator; and the comparison of two air logs. Link with
   crates/relay/out/librelay.a, the archive that `rt lib` makes in crates/relay; it needs no other library.
   After `./relay install PREFIX` the options are those of `pkg-config --cflags --libs relay`.

   The library has no state of its own and allocates nothing. A call reads and writes the memory that it
   is lent, and no other; it keeps no pointer. So any number of threads may call at once, as long as no
   two of them lend the same memory, unless both only read it. A call of a station takes at most 16 KiB
   of the thread's stack, one of a group at most 192 KiB, as the compiler lays them out today.

   Lent memory is a pointer and a length, which counts elements and not bytes. A pointer is not null,
   also where its length is 0. Two buffers of one call must not overlap. Beyond that every argument may
   have any value: a call never crashes, and it ends. What a buffer holds past what the text names is
   not touched. A call that is refused changes nothing at all.

   A station's state is RELAY_STATION_BYTES bytes, a group's RELAY_GROUP_BYTES; the places of all fields
   are given below. The host may copy, save, send and load a state as it likes, and it may change it:
   every call judges the state first, and one that is outside its limits is refused with 2. Equal states
   are equal bytes.

   Where to begin: examples/station.c is a whole program, and its first lines have the command that
   compiles it. A host makes its station with relay_station_fresh, takes edits at any time with
   relay_station_post, and does this in every round:

       relay_station_write   writes the station's frame, which the host sends with the number of the round
       relay_station_hear    for each frame of this round that came, by ascending sender; a frame of
                             another round is dropped
       relay_station_turn    closes the round; its report says what was aired, ended and started

   The state is saved after the turn, before the report is acted on and the next frame is sent:
   docs/HOST.md says why. To try a whole group in one program, relay_group_fresh, relay_group_post and
   relay_group_round do all of that for up to sixteen stations. */
#ifndef RELAY_H
#define RELAY_H

#include <stddef.h>
#include <stdint.h>

#ifdef __cplusplus
extern "C" {
#endif

/* What a call returns. The text of a call lists those that it can give; where several apply, the
   first of that list is given. */
enum relay_refusal {
    RELAY_DONE = 0,           /* nothing is wrong */
    RELAY_BAD_NUMBER = 1,     /* n is not 1 to 16, a station is not below n, or too many rounds are due */
    RELAY_OUTSIDE_LIMITS = 2, /* the bytes are no state, or the state is outside its limits */
    RELAY_QUEUE_FULL = 3,     /* as many edits of the desk wait already as the station's limit */
    RELAY_NOT_AN_EDIT = 4,    /* the posted numbers are no edit of the kind table */
    RELAY_BAD_SHAPE = 5,      /* the length, byte 2 or byte 3 of a frame is wrong */
    RELAY_BAD_ADDRESS = 6,    /* the frame is for another edition or n, or its sender is own or not below n */
    RELAY_BAD_RECORD = 7,     /* a record is outside its limits */
    RELAY_LANE_FULL = 8,      /* a lane that holds two bodies would get a third */
    RELAY_SHORT_BUFFER = 9,   /* a lent buffer is too short */
    RELAY_COUNT_TOO_HIGH = 10, /* the own record's count is above 2 * (n - 1), at writing */
    RELAY_BAD_LINK_LOG = 12,  /* a link log is not whole rounds, or has more than 2,048 */
    RELAY_BAD_LIMIT = 13,     /* a limit of waiting edits is not 1 to 32 */
    RELAY_CONFLICT = 14,      /* a heard record has the label and the count of the held one, and differs from it */
    RELAY_BAD_DESK = 15,      /* a desk is neither 0 nor 1 */
    RELAY_BAD_LISTING = 16,   /* a listing has a line of another form, or does not end with its last line */
    RELAY_BAD_EDITION = 17,   /* an edition is neither 0 nor 1, or an edit's channel is none of its edition */
    RELAY_BAD_QUESTION = 18,  /* a question is bad, is not whole, or is past the 64th */
    RELAY_ALREADY_ISSUED = 19, /* the issuer has issued that tag, or four bulletins */
    RELAY_BAD_CONTEST = 20    /* a contest has too many stations, sets or rounds, or no whole sets of masks */
};

/* Checks the len bytes at `bytes` as a frame heard by station `own` among n stations of an edition, 0 or 1.
   Any values of n, own and edition may be given. `bytes` points at len readable bytes and is not null. No byte is
   changed. Returns 0 where the frame is accepted, else, in this order, 1, 17, 5, 6 or 7. */
uint32_t relay_frame_check(const uint8_t *bytes, size_t len, uint32_t n, uint32_t own, uint32_t edition);

/* Bodies. A body is a kind with its event and its argument. Kinds 2 to 4 are edits. In edition 1 an edit has a
   channel, 1 to 200; the channel of all others, and in edition 0 of all bodies, is 0.

       kind         event             argument
       0 Empty      0                 0
       1 Neutral    0                 0
       2 Insert     1 to 99,999,999   0 to 2,699,999: the start frame
       3 Drop       1 to 99,999,999   0
       4 Shift      1 to 99,999,999   -90,000 to 90,000 frames

   A body is 12 bytes. Here and below, a number of four bytes has its lowest byte first.

       0        kind
       1        channel
       2, 3     zero
       4 to 7   event
       8 to 11  argument, in two's complement

   Bytes that are no body: a kind above 4; a byte 2 or 3 that is not zero; a channel or an event that is not
   0 with kind 0 or 1; an argument that is not 0 with kind 0, 1 or 3. */
#define RELAY_BODY_BYTES 12

/* A record is 16 bytes, as in a frame.

       0         station
       1         count
       2         kind of its body
       3         channel of its body
       4 to 7    event
       8 to 11   argument, in two's complement
       12 to 15  labels: that of station k at bits 2k and 2k + 1 of this number

   Bytes that are no record: those whose kind, channel, event and argument are no body. */
#define RELAY_RECORD_BYTES 16

/* A longest frame: sixteen records behind four bytes. */
#define RELAY_FRAME_MOST 260

/* A station is 1,492 bytes: a head of 16, sixteen places of 44, and 772 of waiting edits.

       0                n, the number of stations
       1                own number
       2                own count
       3                edition
       4 to 15          present body
       16 + 44 k        what it has of station k, for k = 0 to 15:
           + 0            1 where station k is acknowledged, else 0
           + 1            1 where the table holds a record of station k, else 0
           + 2            label for station k
           + 3            length of the lane of station k
           + 4 to 15      the lane's oldest body
           + 16 to 27     the lane's second body
           + 28 to 43     record of station k
       720              number of waiting edits of desk 0
       721              limit of waiting edits, which each desk has for itself
       722              number of waiting edits of desk 1
       723              the desk that goes first where both have waiting edits, 0 or 1
       724 + 12 i       waiting edit i of desk 0, oldest first, for i = 0 to 31
       1,108 + 12 i     waiting edit i of desk 1, oldest first, for i = 0 to 31

   Every field is there, also for stations from n up, past the length of a lane, past the number of a desk's
   waiting edits, and the record of a station of which none is held. No call reads or judges those, and the calls
   keep them as document 01 says; a fresh station has them zero.

   Bytes that are no station, and give 2: a length that is not 1,492; a flag or a byte 723 above 1; twelve
   bytes that are no body; sixteen that are no record. All other bytes are a station. It may still be outside its
   limits, which gives 2 as well: so an edition above 1, and a channel that is none of the edition. */
#define RELAY_STATION_BYTES 1492

/* A group is sixteen stations, one behind the other, 23,872 bytes: station k from 1,492 k on. Its n and
   its edition are those of station 0. Stations from n up are neither judged nor changed, but their bytes must be a station's. */
#define RELAY_GROUP_BYTES 23872

/* The report of a turn is 220 bytes.

       0           1 where a row was aired, else 0
       1           1 where the broadcast ended, else 0
       2, 3        zero
       4 to 15     the body that ended; Empty where none did
       16 to 27    the body that started; Empty where none did
       28 + 12 k   the body of station k in the aired row, for k = 0 to 15. All are Empty where no row was
                   aired, and those from n up always. */
#define RELAY_TURN_BYTES 220

/* The reports of a round are sixteen of 704 bytes, one behind the other, 11,264 bytes: that of station k
   from 704 k on. Those from n up are zero.

       0             number of bodies taken, 0 to 30
       1 to 3        zero
       4 + 16 i      taking i, in the order heard, for i = 0 to 29; zero past their number:
           + 0         station that the body is of
           + 1 to 3    zero
           + 4 to 15   the body
       484 to 703    the report of its turn */
#define RELAY_REPORT_BYTES 704
#define RELAY_ROUND_BYTES 11264

/* The limit of waiting edits of a desk where none is named, and the largest. */
#define RELAY_DEFAULT_LIMIT 8
#define RELAY_MOST_LIMIT 32

/* Makes a fresh station, with no limit named: RELAY_DEFAULT_LIMIT edits of each desk may wait at it.

   state, state_len  where the station goes: room for at least RELAY_STATION_BYTES
   n                 the number of stations, 1 to 16
   own               the station's own number, below n

   Returns 0, or, and then nothing changes, in this order:
       1    n is not 1 to 16, or own is not below n
       9    state_len is less than RELAY_STATION_BYTES

   Example: station 1 of four.

       uint8_t state[RELAY_STATION_BYTES];
       uint32_t refusal = relay_station_fresh(state, sizeof state, 4, 1);
       printf("%u %d %d\n", (unsigned)refusal, state[0], state[1]);   prints 0 4 1 */
uint32_t relay_station_fresh(uint8_t *state, size_t state_len, uint32_t n, uint32_t own);

/* Makes a fresh station at which so many edits of each desk may wait. It keeps its limit; no call
   changes it.

   state, state_len  where the station goes: room for at least RELAY_STATION_BYTES
   n                 the number of stations, 1 to 16
   own               the station's own number, below n
   limit             how many edits of a desk may wait, 1 to RELAY_MOST_LIMIT

   Returns 0, or, and then nothing changes, in this order:
       1    n is not 1 to 16, or own is not below n
       13   limit is not 1 to 32
       9    state_len is less than RELAY_STATION_BYTES

   Example: a station alone with room for one edit of each desk; the second of desk 0 is refused.

       uint8_t state[RELAY_STATION_BYTES];
       relay_station_fresh_limited(state, sizeof state, 1, 0, 1);
       uint32_t first = relay_station_post(state, sizeof state, 0, 2, 7, 100, 0);
       uint32_t second = relay_station_post(state, sizeof state, 0, 2, 8, 100, 0);
       uint32_t other = relay_station_post(state, sizeof state, 1, 2, 9, 100, 0);
       printf("%u %u %u\n", (unsigned)first, (unsigned)second, (unsigned)other);   prints 0 3 0 */
uint32_t relay_station_fresh_limited(uint8_t *state, size_t state_len, uint32_t n, uint32_t own,
                                     uint32_t limit);

/* Makes a fresh station of an edition, at which so many edits of each desk may wait. It keeps both; no
   call changes them. Where no edition is named it is 0.

   state, state_len  where the station goes: room for at least RELAY_STATION_BYTES
   n                 the number of stations, 1 to 16
   own               the station's own number, below n
   limit             how many edits of a desk may wait, 1 to RELAY_MOST_LIMIT
   edition           the edition of the station's group, 0 or 1

   Returns 0, or, and then nothing changes, in this order:
       1    n is not 1 to 16, or own is not below n
       13   limit is not 1 to 32
       17   edition is neither 0 nor 1
       9    state_len is less than RELAY_STATION_BYTES

   Example: in edition 1 an edit of channel 5 is taken, and one without a channel is refused.

       uint8_t state[RELAY_STATION_BYTES];
       relay_station_fresh_edition(state, sizeof state, 2, 0, 8, 1);
       uint32_t first = relay_station_post(state, sizeof state, 0, 2, 7, 100, 5);
       uint32_t second = relay_station_post(state, sizeof state, 0, 2, 7, 100, 0);
       printf("%u %u %d\n", (unsigned)first, (unsigned)second, state[3]);   prints 0 17 1 */
uint32_t relay_station_fresh_edition(uint8_t *state, size_t state_len, uint32_t n, uint32_t own,
                                     uint32_t limit, uint32_t edition);

/* Posts an edit of a desk at a station: it waits behind those of the same desk that wait already. Where
   an edit may start and both desks have one, the desk that did not start the last edit goes first; a
   fresh station begins with desk 0.

   state, state_len        the station, RELAY_STATION_BYTES bytes; it becomes the station with the edit
   desk                    the desk that posts, 0 or 1
   kind, event, argument   the edit
   channel                 its channel: 1 to 200 in edition 1, 0 in edition 0

   Returns 0, or, and then nothing changes, in this order:
       2    the bytes are no station, or it is outside its limits
       15   desk is neither 0 nor 1
       4    kind, event and argument are no edit of the kind table
       17   the channel is none of an edit in the station's edition
       3    as many edits of the desk wait already as the station's limit

   Example: desk 1 posts an insert at frame 100, and what is no edit; there is no desk 2.

       uint8_t state[RELAY_STATION_BYTES];
       relay_station_fresh(state, sizeof state, 1, 0);
       uint32_t first = relay_station_post(state, sizeof state, 1, 2, 7, 100, 0);
       uint32_t second = relay_station_post(state, sizeof state, 1, 3, 7, 100, 0);
       uint32_t third = relay_station_post(state, sizeof state, 2, 2, 7, 100, 0);
       printf("%u %u %u\n", (unsigned)first, (unsigned)second, (unsigned)third);   prints 0 4 15
       printf("%d %d\n", state[720], state[722]);                                 prints 0 1 */
uint32_t relay_station_post(uint8_t *state, size_t state_len, uint32_t desk, uint32_t kind, uint32_t event,
                            int32_t argument, uint32_t channel);

/* Writes the frame of a station: the records that its table holds.

   state, state_len    the station, RELAY_STATION_BYTES bytes; it does not change
   frame, frame_len    where the frame goes: room for at least as many bytes as it has, which are 4, and 16
                       for each record that is held; RELAY_FRAME_MOST is always enough. Bytes past the
                       frame are not touched.
   length, length_len  where its number of bytes goes: room for at least 1. Entries past the first are not
                       touched.

   Returns 0, or, and then nothing changes, in this order:
       2    the bytes are no station, or it is outside its limits
       10   the count of its own record is above 2 * (n - 1)
       9    frame_len is less than the frame has, or length_len is 0

   Example: the frame of a fresh station has one record.

       uint8_t state[RELAY_STATION_BYTES], frame[RELAY_FRAME_MOST];
       uint32_t length = 0;
       relay_station_fresh(state, sizeof state, 4, 1);
       uint32_t refusal = relay_station_write(state, sizeof state, frame, sizeof frame, &length, 1);
       printf("%u %u\n", (unsigned)refusal, (unsigned)length);   prints 0 20 */
uint32_t relay_station_write(const uint8_t *state, size_t state_len, uint8_t *frame, size_t frame_len,
                             uint32_t *length, size_t length_len);

/* A station hears the frame of another. A frame counts only in its round: the host drops late ones, and hands
   a station the frames of a round by ascending sender, before the station's turn.

   state, state_len  the station, RELAY_STATION_BYTES bytes; it becomes the station once it has heard
   frame, frame_len  the frame, as it came; it does not change
   taken, taken_len  where is told from which stations a body was taken: room for at least 16. Entry k
                     becomes 1 where one was taken from station k, else 0.

   Returns 0, or, and then nothing changes, in this order:
       2    the bytes are no station, or it is outside its limits
       5    the frame's length, byte 2 or byte 3 is wrong
       6    the frame is for another n, or its sender is the hearer or not below n
       7    a record of the frame is outside its limits
       14   a record of another station has the own label and the count of the held one, and another body
            or other labels
       8    a lane that holds two bodies would get a third
       9    taken_len is less than 16

   Example: station 0 of two hears the first frame of station 1, and does not hear its own.

       uint8_t hearer[RELAY_STATION_BYTES], other[RELAY_STATION_BYTES], frame[RELAY_FRAME_MOST], taken[16];
       uint32_t length = 0;
       relay_station_fresh(hearer, sizeof hearer, 2, 0);
       relay_station_fresh(other, sizeof other, 2, 1);
       relay_station_write(other, sizeof other, frame, sizeof frame, &length, 1);
       uint32_t heard = relay_station_hear(hearer, sizeof hearer, frame, length, taken, 16);
       uint32_t own = relay_station_hear(other, sizeof other, frame, length, taken, 16);
       printf("%u %u %d\n", (unsigned)heard, (unsigned)own, hearer[16 + 44 + 1]);   prints 0 6 1 */
uint32_t relay_station_hear(uint8_t *state, size_t state_len, const uint8_t *frame, size_t frame_len,
                            uint8_t *taken, size_t taken_len);

/* A station takes its turn, which closes the round: it may air a row, end its broadcast and start the next.

   state, state_len    the station, RELAY_STATION_BYTES bytes; it becomes the station after the turn
   report, report_len  where the report goes: room for at least RELAY_TURN_BYTES

   Returns 0, or, and then nothing changes, in this order:
       2    the bytes are no station, or it is outside its limits
       9    report_len is less than RELAY_TURN_BYTES

   Example: a station alone starts its edit in its first turn and airs it in its second.

       uint8_t state[RELAY_STATION_BYTES], report[RELAY_TURN_BYTES];
       relay_station_fresh(state, sizeof state, 1, 0);
       relay_station_post(state, sizeof state, 0, 2, 7, 100, 0);
       relay_station_turn(state, sizeof state, report, sizeof report);
       printf("%d %d %d\n", report[0], report[1], report[16]);   prints 0 1 2
       relay_station_turn(state, sizeof state, report, sizeof report);
       printf("%d %d %d\n", report[0], report[28], report[32]);   prints 1 2 7 */
uint32_t relay_station_turn(uint8_t *state, size_t state_len, uint8_t *report, size_t report_len);

/* Makes a fresh group: stations 0 to n - 1, fresh, with no limit named. From n up stands the fresh station
   0 of n = 1.

   state, state_len  where the group goes: room for at least RELAY_GROUP_BYTES
   n                 the number of stations, 1 to 16

   Returns 0, or, and then nothing changes, in this order:
       1    n is not 1 to 16
       9    state_len is less than RELAY_GROUP_BYTES

   Example: a group of three.

       static uint8_t group[RELAY_GROUP_BYTES];
       uint32_t refusal = relay_group_fresh(group, sizeof group, 3);
       printf("%u %d\n", (unsigned)refusal, group[2 * RELAY_STATION_BYTES + 1]);   prints 0 2 */
uint32_t relay_group_fresh(uint8_t *state, size_t state_len, uint32_t n);

/* Makes a fresh group with so many edits that may wait at each of its stations. From n up stands the fresh
   station 0 of n = 1 with RELAY_DEFAULT_LIMIT, whatever limit is named.

   state, state_len  where the group goes: room for at least RELAY_GROUP_BYTES
   n                 the number of stations, 1 to 16
   limit             how many edits of a desk may wait at a station, 1 to RELAY_MOST_LIMIT

   Returns 0, or, and then nothing changes, in this order:
       1    n is not 1 to 16
       13   limit is not 1 to 32
       9    state_len is less than RELAY_GROUP_BYTES

   Example: a group of two, and what stands behind it.

       static uint8_t group[RELAY_GROUP_BYTES];
       uint32_t refusal = relay_group_fresh_limited(group, sizeof group, 2, 32);
       printf("%u %d %d\n", (unsigned)refusal, group[RELAY_STATION_BYTES + 721],
              group[2 * RELAY_STATION_BYTES + 721]);   prints 0 32 8 */
uint32_t relay_group_fresh_limited(uint8_t *state, size_t state_len, uint32_t n, uint32_t limit);

/* Makes a fresh group of an edition with so many edits that may wait at each of its stations. From n up
   stands the fresh station 0 of n = 1 with RELAY_DEFAULT_LIMIT and edition 0, whatever is named.

   state, state_len  where the group goes: room for at least RELAY_GROUP_BYTES
   n                 the number of stations, 1 to 16
   limit             how many edits of a desk may wait at a station, 1 to RELAY_MOST_LIMIT
   edition           the group's edition, 0 or 1

   Returns 0, or, and then nothing changes, in this order:
       1    n is not 1 to 16
       13   limit is not 1 to 32
       17   edition is neither 0 nor 1
       9    state_len is less than RELAY_GROUP_BYTES

   Example: a group of two in edition 1, and what stands behind it.

       static uint8_t group[RELAY_GROUP_BYTES];
       uint32_t refusal = relay_group_fresh_edition(group, sizeof group, 2, 8, 1);
       printf("%u %d %d\n", (unsigned)refusal, group[RELAY_STATION_BYTES + 3],
              group[2 * RELAY_STATION_BYTES + 3]);   prints 0 1 0 */
uint32_t relay_group_fresh_edition(uint8_t *state, size_t state_len, uint32_t n, uint32_t limit,
                                   uint32_t edition);

/* Posts an edit of a desk at a station of a group.

   state, state_len        the group, RELAY_GROUP_BYTES bytes; it becomes the group with the edit
   station                 the station, below the group's n
   desk                    the desk that posts, 0 or 1
   kind, event, argument   the edit
   channel                 its channel: 1 to 200 in edition 1, 0 in edition 0

   Returns 0, or, and then nothing changes, in this order:
       2    the bytes are no group, or it is outside its limits: a station is, or has another n or
            edition, or its own number is not its place
       1    station is not below n
       15   desk is neither 0 nor 1
       4    kind, event and argument are no edit of the kind table
       17   the channel is none of an edit in the station's edition
       3    as many edits of the desk wait at the station already as its limit

   In a group inside its limits the answer to a desk depends on no edit of the other desk.

   Example: a post of desk 1 at station 1, and one at a station that is not there.

       static uint8_t group[RELAY_GROUP_BYTES];
       relay_group_fresh(group, sizeof group, 2);
       uint32_t first = relay_group_post(group, sizeof group, 1, 1, 4, 7, -50, 0);
       uint32_t second = relay_group_post(group, sizeof group, 2, 1, 4, 7, -50, 0);
       printf("%u %u %d\n", (unsigned)first, (unsigned)second,
              group[RELAY_STATION_BYTES + 722]);   prints 0 1 1 */
uint32_t relay_group_post(uint8_t *state, size_t state_len, uint32_t station, uint32_t desk, uint32_t kind,
                          uint32_t event, int32_t argument, uint32_t channel);

/* Runs one round of a group: all frames are written first; then each station hears those of its mask by
   ascending sender and takes its turn.

   state, state_len      the group, RELAY_GROUP_BYTES bytes; it becomes the group after the round
   masks, masks_len      at least 16 masks: bit j of mask i is 1 where station i hears station j. Bit i of
                         mask i, bits from n up and masks from n up say nothing.
   reports, reports_len  where the reports go: room for at least RELAY_ROUND_BYTES

   Returns 0, or, and then nothing changes, in this order:
       2    the bytes are no group, or it is outside its limits: a station is, or has another n or
            edition, or its own number is not its place
       10   the count of a station's own record is above 2 * (n - 1)
       14 or 8, whichever the first refused frame gives, stations in order and then senders; one that meets
            both gives 14. 14: a record conflicts with the one that the hearer holds when the frame is
            heard. 8: a lane that holds two bodies would get a third. Masks that are not there count as 0
            here.
       9    masks_len is less than 16, or reports_len is less than RELAY_ROUND_BYTES

   From a fresh group a round is not refused with 2, 10, 14 or 8.

   Example: two stations that hear each other; in round 2 each ends its first broadcast.

       static uint8_t group[RELAY_GROUP_BYTES], reports[RELAY_ROUND_BYTES];
       const uint16_t masks[16] = {2, 1};
       relay_group_fresh(group, sizeof group, 2);
       relay_group_round(group, sizeof group, masks, 16, reports, sizeof reports);
       printf("%d %d\n", reports[484 + 1], reports[704 + 484 + 1]);   prints 0 0
       relay_group_round(group, sizeof group, masks, 16, reports, sizeof reports);
       printf("%d %d\n", reports[484 + 1], reports[704 + 484 + 1]);   prints 1 1 */
uint32_t relay_group_round(uint8_t *state, size_t state_len, const uint16_t *masks, size_t masks_len,
                           uint8_t *reports, size_t reports_len);

/* Bulletins: urgent notices beside a group's edits. A bulletin is its issuer, a tag of 32 bits and an
   event, and an issuer has at most four for good. Whoever holds a bulletin passes it on in every round to
   all that hear it, and every station shows it once: the issuer when it is issued, any other in the
   first round by which a relay from the issuer has come after that. Frames do not change.

   The bulletins of a group are RELAY_BULLETINS_BYTES bytes. An issuer has four places, issuer i those
   from 4 * i on.

       0 to 3      n
       4 to 259    the tags of the 64 places, four bytes each
       260 to 515  their events, four bytes each
       516 to 643  the sets of the 16 stations, eight bytes each, the lowest byte first: bit s of a
                   station's set is 1 where it holds the bulletin at place s

   At a place whose issuer does not hold it there is no bulletin, and its tag and event say nothing; nor
   do the sets from n up. Bulletins are inside their limits if n is 1 to 16; each one that a station
   below n holds has an issuer below n that holds it too; the tags of an issuer's bulletins differ; and
   their events are 1 to 99,999,999.

   Bytes that are no bulletins: another length, or an n above 255. */
#define RELAY_BULLETINS_BYTES 644

/* What one station shows in a round is RELAY_SHOWN_BYTES bytes, and what all sixteen show
   RELAY_ROUND_SHOWN_BYTES, one behind the other.

       0 to 3            how many bulletins it shows
       4 + 12 i, 12 each the i-th of them, from 0: issuer, tag and event, four bytes each; 64 entries, the
                         unused ones zero. They come by issuer, and then by tag as an unsigned number. */
#define RELAY_SHOWN_BYTES 772
#define RELAY_ROUND_SHOWN_BYTES 12352

/* Makes the bulletins of a fresh group of n stations: there are none.

   state, state_len  where they go: room for at least RELAY_BULLETINS_BYTES

   Returns 0, or, and then nothing changes, in this order:
       1    n is not 1 to 16
       9    state_len is less than RELAY_BULLETINS_BYTES */
uint32_t relay_bulletins_fresh(uint8_t *state, size_t state_len, uint32_t n);

/* Issues a bulletin. Where it is done the issuer shows it now. It goes to the first of its issuer's
   places at which there is none.

   state, state_len  the bulletins, RELAY_BULLETINS_BYTES bytes; they become those after the issue

   Returns 0, or, and then nothing changes, in this order:
       2    the bytes are no bulletins, or they are outside their limits
       1    issuer is not below n
       4    event is not 1 to 99,999,999
       19   the issuer has issued that tag, or four bulletins

   Example: a tag may be any number of 32 bits, and is issued once.

       static uint8_t bulletins[RELAY_BULLETINS_BYTES];
       relay_bulletins_fresh(bulletins, sizeof bulletins, 2);
       uint32_t first = relay_bulletins_issue(bulletins, sizeof bulletins, 1, 4294967295u, 7);
       uint32_t again = relay_bulletins_issue(bulletins, sizeof bulletins, 1, 4294967295u, 8);
       printf("%u %u\n", (unsigned)first, (unsigned)again);   prints 0 19 */
uint32_t relay_bulletins_issue(uint8_t *state, size_t state_len, uint32_t issuer, uint32_t tag, uint32_t event);

/* Runs one round of a group and of its bulletins, on the same masks. What it does to the group and
   reports of it is what relay_group_round does; with that call alone the bulletins would stand still.

   group, group_len      the group, RELAY_GROUP_BYTES bytes; it becomes the group after the round
   state, state_len      its bulletins, RELAY_BULLETINS_BYTES bytes; they become those after the round
   masks, masks_len      at least 16 masks, as for relay_group_round
   reports, reports_len  where the reports go: room for at least RELAY_ROUND_BYTES
   shown, shown_len      where what is shown goes: room for at least RELAY_ROUND_SHOWN_BYTES

   Returns 0, or, and then nothing changes, in this order:
       2    the bytes are no group or no bulletins, one of them is outside its limits, or they differ in n
       10, and then 14 or 8, as for relay_group_round
       9    masks_len is less than 16, reports_len is less than RELAY_ROUND_BYTES, or shown_len is less
            than RELAY_ROUND_SHOWN_BYTES

   From a fresh group and its fresh bulletins a round is not refused with 2, 10, 14 or 8.

   Example: station 1 hears station 0, and shows what 0 has issued.

       static uint8_t group[RELAY_GROUP_BYTES], bulletins[RELAY_BULLETINS_BYTES];
       static uint8_t reports[RELAY_ROUND_BYTES], shown[RELAY_ROUND_SHOWN_BYTES];
       const uint16_t masks[16] = {0, 1};
       relay_group_fresh(group, sizeof group, 2);
       relay_bulletins_fresh(bulletins, sizeof bulletins, 2);
       relay_bulletins_issue(bulletins, sizeof bulletins, 0, 5, 77);
       relay_bulletins_round(group, sizeof group, bulletins, sizeof bulletins, masks, 16, reports,
                             sizeof reports, shown, sizeof shown);
       const uint8_t *one = shown + RELAY_SHOWN_BYTES;
       printf("%d: %d %d %d\n", one[0], one[4], one[8], one[12]);   prints 1: 0 5 77 */
uint32_t relay_bulletins_round(uint8_t *group, size_t group_len, uint8_t *state, size_t state_len,
                               const uint16_t *masks, size_t masks_len, uint8_t *reports, size_t reports_len,
                               uint8_t *shown, size_t shown_len);

/* The forecast of a link log: for each station how many of its broadcasts end, and the round of the
   last end, for links that are known ahead. Rounds are numbered from 1.

   log, log_len    the log: n masks a round, from station 0 up, round after round. Bit j of the mask of
                   station i is 1 where i hears j in that round; the own bit and bits from n up say
                   nothing. A log of length 0 has no rounds, and nothing ends.
   n               the number of stations, 1 to 16
   ends, ends_len  where the counts go: room for at least 16 entries, also where n is smaller. Entry s
                   becomes the number of ends of station s.
   last, last_len  where the rounds go: room for at least 16 entries. Entry s becomes the round of the
                   last end of station s, or 0 where none of its broadcasts ends.

   Entries from n to 15 become 0. Entries from 16 up are not touched.

   Returns 0, or, and then neither buffer changes, in this order:
       1    n is not 1 to 16
       12   log_len is not a multiple of n, or the log has more than 2,048 rounds
       9    ends_len or last_len is less than 16

   Example: two stations that hear each other for three rounds.

       const uint16_t log[] = {2, 1, 2, 1, 2, 1};
       uint16_t ends[16], last[16];
       if (relay_forecast(log, 6, 2, ends, 16, last, 16) == RELAY_DONE)
           printf("%d %d\n", ends[0], last[0]);   prints 1 2: one end, in round 2 */
uint32_t relay_forecast(const uint16_t *log, size_t log_len, uint32_t n,
                        uint16_t *ends, size_t ends_len, uint16_t *last, size_t last_len);

/* A buffer of this many bytes is long enough for every call of relay_load. */
#define RELAY_LOAD_ENOUGH 754

/* Writes the next lines of a script that is drawn from a seed, so that everyone can repeat it.
   `state` is the seed, or what the call before put into next[0]. n is the number of stations, and `due` how many rounds
   are still to be written. Where `head` is not 0 the N line is written, which draws nothing; else the lines of the next
   round are, and none where `due` is 0. A whole script is one call with `head`, and then a call for each round, with one
   round fewer due each time.
   `buffer` points at buffer_len bytes and `next` at next_len places; both are writable and neither is null. The lines
   stand at the front of the buffer, and its other bytes are kept. next[0] is the state for the next call, and next[1]
   the number of bytes written.
   Returns RELAY_DONE, RELAY_BAD_NUMBER, or RELAY_SHORT_BUFFER where the lines do not fit or there are fewer than two
   places. A refused call changes nothing. Any values may be given, and no memory is kept. */
uint32_t relay_load(uint32_t state, uint32_t n, uint32_t due, uint32_t head, uint8_t *buffer, size_t buffer_len,
                    uint32_t *next, size_t next_len);

/* Merges two link logs: a hearing is there in a round if either log has it. The merged log is as long
   as the longer one; the other is silent past its end. Bits that are no hearing, the own bit and bits
   from n up, are 0 in it.

   first, first_len    a log: n masks a round, from station 0 up, round after round
   second, second_len  another
   n                   the number of stations, 1 to 16
   merged, merged_len  where the merged log goes: room for at least as many masks as the longer log has.
                       Entries past the merged log are not touched.
   masks, masks_len    where its number of masks goes: room for at least 1. Entry 0 becomes the number,
                       and the others are not touched.

   At every station the k-th end under the merged log comes no later than under either log, for every k
   that comes there. That is said of ends alone: rows may be aired later.

   Returns 0, or, and then neither buffer changes, in this order:
       1    n is not 1 to 16
       12   first_len or second_len is not a multiple of n, or a log has more than 2,048 rounds
       9    merged_len is less than first_len or second_len, or masks_len is 0

   Example: two stations; the first log has one round, in which 0 hears 1, the second has two, and in
   each 1 hears 0.

       const uint16_t first[] = {2, 0}, second[] = {0, 1, 0, 1};
       uint16_t merged[4];
       uint32_t masks;
       if (relay_merge(first, 2, second, 4, 2, merged, 4, &masks, 1) == RELAY_DONE)
           printf("%u: %d %d\n", (unsigned)masks, merged[0], merged[1]);   prints 4: 2 1 */
uint32_t relay_merge(const uint16_t *first, size_t first_len, const uint16_t *second,
                     size_t second_len, uint32_t n, uint16_t *merged, size_t merged_len,
                     uint32_t *masks, size_t masks_len);

/* The answer to a question where the log does not bring the broadcast. No round has this number. */
#define RELAY_NEVER 4294967295u

/* Answers a page of questions about one link log: by which round has a station received a broadcast of
   another? Rounds are numbered from 1; a station has its own broadcast in the round in which it starts
   it, and its first in round 0.

   log, log_len              the log: n masks a round, from station 0 up, round after round
   n                         the number of stations, 1 to 16
   questions, questions_len  the page: three numbers a question, one question after the other: the
                             sender, the receiver, and the number of the broadcast, counted from 1
   answers, answers_len      where the answers go: room for one a question. Entry i becomes the answer
                             to question i, a round from 0 up or RELAY_NEVER; entries past the last
                             question are not touched.

   An answer does not depend on the other questions. Rounds added at the end of the log change none
   but RELAY_NEVER, which may become one of those rounds.

   Returns 0, or, and then the buffer does not change, in this order:
       1    n is not 1 to 16
       12   log_len is not a multiple of n, or the log has more than 2,048 rounds
       18   a question names a station not below n, has number 0, has fewer than three numbers, or is
            past the 64th
       9    answers_len is less than the number of questions

   Example: two stations that hear each other for two rounds. Station 1 has the first broadcast of 0 in
   round 1; 0 starts its second in round 2; and 1 does not have that one.

       const uint16_t log[] = {2, 1, 2, 1};
       const uint32_t questions[] = {0, 1, 1, 0, 0, 2, 0, 1, 2};
       uint32_t answers[3];
       if (relay_questions(log, 4, 2, questions, 9, answers, 3) == RELAY_DONE)
           printf("%u %u %d\n", (unsigned)answers[0], (unsigned)answers[1],
                  answers[2] == RELAY_NEVER);   prints 1 2 1 */
uint32_t relay_questions(const uint16_t *log, size_t log_len, uint32_t n,
                         const uint32_t *questions, size_t questions_len,
                         uint32_t *answers, size_t answers_len);

/* The link contest: a keeper wants station s to end its first broadcast, a breaker does not. In odd
   rounds the keeper picks the set of links that holds, in even rounds the breaker, each knowing the
   picks before. Tells which of the two can force the result against every play of the other.

   n               the number of stations, at most 4
   s               the station whose first broadcast it is about
   sets, sets_len  the sets, numbered from 0: n masks a set, from station 0 up, one to four sets. Masks are
                   those of a link log.
   rounds          how many rounds are played, at most 6. With none the breaker wins.
   answer,         where the answer goes: room for at least two numbers. answer[0] becomes 0 where the
   answer_len      breaker can force the result and 1 where the keeper can; answer[1] becomes the
                   keeper's first pick, the lowest from which it still can, or 0 for the breaker.
                   Numbers past these two are not touched.

   Returns 0, or, and then the buffer does not change, in this order:
       1    n is not 1 to 16, or s is not below n
       20   n is above 4, the masks are not one to four whole sets, or there are more than 6 rounds
       9    answer_len is less than 2

   Example: two stations; in set 0 nobody hears, in set 1 both hear each other; three rounds.

       const uint16_t sets[] = {0, 0, 2, 1};
       uint32_t answer[2];
       if (relay_contest(2, 0, sets, 4, 3, answer, 2) == RELAY_DONE)
           printf("%u %u\n", answer[0], answer[1]);   prints 1 1: the keeper, by picking set 1 */
uint32_t relay_contest(uint32_t n, uint32_t s, const uint16_t *sets, size_t sets_len, uint32_t rounds,
                       uint32_t *answer, size_t answer_len);

/* What relay_compare answers. */
enum relay_compared {
    RELAY_EQUAL = 0,         /* the two logs are equal */
    RELAY_FIRST_BEGINS = 1,  /* the first log is a beginning of the second, which goes on */
    RELAY_SECOND_BEGINS = 2, /* the second log is a beginning of the first, which goes on */
    RELAY_DIFFERENT = 3      /* at some position the two have different edits */
};

/* Compares two air logs. The log of a station in a listing is its A lines, in their order; of each the
   source, the kind, the event and the argument are compared, and rounds may differ.

   first, first_len    a listing: any bytes, which are judged whole and not changed
   p                   the station of its log, 0 to 15; a station that is not in the listing has an
                       empty log
   second, second_len  another listing, which may be the same memory
   q                   the station of its log
   answer, answer_len  where the answer goes: room for at least 2 numbers. Number 0 becomes one of
                       relay_compared, and number 1 the position of the first different edit, counted
                       from 1 in each log, or 0 where there is none. Numbers past the second are not
                       touched.

   Two logs of one listing that the relay's program printed are never RELAY_DIFFERENT.

   Returns 0, or, and then the buffer does not change, in this order:
       1    p or q is above 15
       16   a line of a listing, with its line end, does not have the listing's form, the last line is
            not END, or something follows it
       9    answer_len is less than 2

   Example: a listing with one edit, aired by stations 0 and 1 in different rounds.

       const uint8_t listing[] = "     3 A  0  0 2        7      100\n"
                                 "     4 A  1  0 2        7      100\nEND\n";
       uint64_t answer[2];
       size_t len = sizeof listing - 1;
       if (relay_compare(listing, len, 0, listing, len, 1, answer, 2) == RELAY_DONE)
           printf("%d\n", answer[0] == RELAY_EQUAL);   prints 1: the two logs are equal */
uint32_t relay_compare(const uint8_t *first, size_t first_len, uint32_t p, const uint8_t *second,
                       size_t second_len, uint32_t q, uint64_t *answer, size_t answer_len);

#ifdef __cplusplus
}
#endif

#endif
