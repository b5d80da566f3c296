/* apollo.h: one card of a replicated list, for a host program in C or C++.
 *
 * n = 2f + 1 cards (3 to 15) keep one list of entries alike, though f of them may fail in any manner. This library is one card's step
 * machine. It keeps nothing between calls, allocates nothing and never blocks: all state is in the record, the log and the masks, which
 * the host holds and lends to each call. The archive needs nothing but memset: cc -Idist host.c dist/libhost.a. What follows is the
 * host's part: the agreement of the lists rests on it. docs/HOSTS.md has the life of a card step by step, the reasons and a table for
 * the repairer; examples/card.c is a host that keeps these rules. T is the last round of a term, R the round that a card waits for; the
 * rotation is the order in which the cards lead, each card's number once.
 *
 * State
 *   - One record, one log of 512 * T bytes and one array of T masks for each card. Hand each call the record, log and masks exactly as
 *     that card's last call left them; nobody else writes them meanwhile. `answer.replica` is the record for the next call, also after
 *     a refusal.
 *   - Call apollo_open once per card and term, with the card's own number and the f, T and rotation that all cards share. The record of
 *     a refused open is all zeros: hand it to no call.
 *   - A card that is to go on after a restart writes its state to disk before it sends what a call emitted. One that lost its state, or
 *     has an older one, counts among the f that fail until the term ends. It may be opened afresh to follow the list, if nothing that
 *     it emits is sent: it would sign a second block for a round.
 *   - At most f cards may fail in one term, all told, not at a time; a card that was cut off or stood still long enough to be blamed is
 *     one of them.
 *
 * Terms
 *   - Each term has a number above all earlier ones', which every datagram names. A term is over for a card at R = T + 1; no 3 need be
 *     seen. The next is opened then, or when f + 1 cards have sent datagrams of it, with a record, log and masks of its own: two terms
 *     run side by side, and a card may be behind in the old one. A frame is handed in to the card of its own term and to no other. A
 *     rotation holds for a whole term: another one comes with the next, for all cards together.
 *   - Answer in the old term until every other card has told R = T + 1 there, or the next one is over too.
 *
 * Signatures
 *   - A frame travels with the signature of its signer (byte 1), whoever sends it: cards pass on each other's frames. It covers the
 *     whole frame, a word for this use, and what all cards share: n, f, T, the rotation, the term's number and all public keys. Frames
 *     carry no term and no rotation: where the same card leads round 1, the last term's block 1 would be answered 0 in the next, and a
 *     blame is taken whatever rotation its signer goes by.
 *   - Sign the frames that the card's calls emit, the first `answer.frames` of 512 bytes in the out buffer, and no other frame ever.
 *   - Authenticate the sender of every datagram as well, under another word: blocks are kept and questions answered by sender, and that
 *     is who sent them, not who signed the frames. The sender's word says nothing about a frame.
 *   - Keep the signature of each block in the log and of each blame, to pass it on as long as the term lasts. A blame is a function of
 *     round and signer (table below): on the wire the blames of a round are that round, the signers and their signatures.
 *
 * Hearing: before anything is looked up, kept or handed in
 *   - The datagram's size, term and sender; of each frame the kind (byte 0), a signer below n and a round from 1 to T, of a block all that
 *     the frame table asks for (of a question R from 1 to T + 1, and the committed round below it); its digest, apollo_digest of the
 *     first 480 bytes against the last 32; its signer's signature. Drop what fails. Known already is a frame whose 512 bytes all are: it
 *     needs no check, and the signature that was checked stays.
 *   - The digest too, since parents are found by it: a liar signs a frame that bears another block's. The frame table too, since it signs
 *     what is no block: that would push out a block of it that is kept.
 *
 * Sending
 *   - An emitted blame goes to all cards.
 *   - An emitted block goes to all, after its parent and f + 1 blames of every round between the two: without them it is answered 13.
 *   - When a call moves the card to another round and emits no block, the leader that the answer names is sent the newest block, its
 *     parent, and f + 1 blames of every round that was passed over between them and since.
 *   - Cables lose frames. While the card stays in a round, send all this again every few ticks, and ask f + 1 other cards, so that one
 *     is correct, the next ones each time, and R's leader if it is not among them. All this goes by the host's own clock, from the
 *     opening on, also while apollo_tick is withheld. A question tells R, the committed round and the digest of its block (0 and zeros
 *     for none), and the marks (Two blocks of one round).
 *   - Asked by a card in an earlier round, send it, for each round above that card's committed one and below the own R, lowest first,
 *     the block in the slot or, where the slot is empty, f + 1 blames. An answer may end after 2f + 1 rounds, never sooner: R is at
 *     most 2f + 1 above the committed round while the premises hold, and an answer that ends below the asker's R brings nothing alone.
 *     One that asks from more than 2f + 1 rounds below was away: tell it the own R, and it fetches (Coming back). In the same round send
 *     all blames of it that are there, to a later round nothing: ask that card. The host keeps those frames: a mask only says who
 *     blamed. Limit how often each card is answered.
 *   - Questions also compare lists: whoever has committed that round must have the same digest there. Another block or none means that
 *     the lists have parted or that the asker lies: f + 1 cards must say so.
 *
 * Handing in: blocks by apollo_branch, blames by apollo_blames (byte 0 says which); for a lone blame apollo_blame does the same
 *   - The blames of a round are a set: they wait, go in, are kept and are sent again together, each signer's once. A set is taken whole
 *     or not at all, and bits that stand are passed over: it may be all that is kept of its round.
 *   - First, for each round up to R, the blames that are not in its mask. Then the kept blocks of round R or above, lowest first, each
 *     with its kept parents before it in one branch, down to one whose parent is in the log, until one is taken; then both again. Do
 *     not stop at the first that is refused, and try all blocks of a round: one may be a liar's.
 *   - What was refused goes in again only when the cause is gone. 11: the parent that the branch's first frame names has come. 13:
 *     round `place` has f + 1 bits in its mask. 14: R has come to the blames' round. Where a host tried again after each new frame,
 *     5,000 to 7,800 calls a card were answered 13; with these triggers 155 to 290.
 *   - Dropped are, of a branch or a set answered 7 to 9, frame `place` and no other, and the rest of a set goes in again at once; a
 *     first frame answered 11 whose parent is in the log (zeros: the genesis, always there), since its height or round is a lie. For 12
 *     see there.
 *   - Blames answered 10 are in the mask already: they wait no longer, but those kept for sending stay. 16 is the host's own mistake:
 *     sort the blames by round and signer, and drop none.
 *   - Keep each block until its round is committed, also one that is answered 10: a later block may need it as its parent. Keep them by
 *     sender, so that a liar pushes out only what it sent: for each sender one block a round, the last that came, of the 2f + 1 rounds
 *     or more above the committed one. Drop a higher one, and ask who sent it.
 *
 * Coming back: a card was away if f + 1 others have passed the next round that it leads (they signed frames of later ones, or told so). It
 * counts among the f, and nobody waits for it. It fetches what it lacks (while it stands still one card's word is enough to ask that
 * card):
 *   - It asks one card at a time for its chain above the own COMMITTED height, and is sent what apollo_fetch gives, each frame with its
 *     signature. The next question goes on from the height of the last frame, until an answer has fewer frames than the tray takes (none
 *     with 15). Not above the tip's height: the own tip may be on another branch, and the first frame is then loose (11).
 *   - The frames, heard as above, are handed in as one branch, or a beginning of them is, then or later, though more is committed since.
 *     While the premises hold, that card's host keeps these rules and its chain only grew from its first answer to its last, the answer
 *     is 3, 10 (they end below R: nothing to take from it; what it passed over since comes by questions), 13 or 0, and never 7, 8, 9, 11
 *     or 12. This is proved.
 *   - 13: get the blames of round `place` from that card, hand them in, then the branch again. If `place` is above R, they are early
 *     (14): first hand in, as a branch by themselves, the frames of rounds below `place`. They are taken, and R is then at least
 *     `place`. This is proved too.
 *   - A refused branch costs as much as a taken one. Where many rounds were passed over, hand in run by run: the rounds of the frames show
 *     which; ask for all their blames together; then the frames up to the next such round, its blames, the frames after it, and so on.
 *     From any block that both cards hold, not below the own committed one, the answers are the same, whatever others sent: this is
 *     proved as well.
 *   - Any other answer (for 12 see there), none at all, or a bad frame: that card lies or is out, or its chain changed meanwhile. Drop
 *     the frames and begin again with the next card: of f + 1 one is correct. If it lasts with f + 1 cards: compare lists.
 *
 * Two blocks of one round: a correct card signs one. Two different ones that bear their leader's signature show whoever sees both that
 * this card is broken, and the repairer wants its number:
 *   - A host comes by them where a block is heard, as above and its signature too, of a round whose slot holds another digest, or of
 *     which a block with another digest is kept, whoever sent it. Compare before the new one takes the other's place or is dropped as
 *     old: rounds long committed count, and so do the frames of a tray. Leave out the card's own rounds: a block there that differs from
 *     the log's is from before a loss of its state.
 *   - Hand both to apollo_equivocation end to end, in any order, as 1,024 bytes, unless the mark stands. Taken, bit i of `equivocators`
 *     is set for the leader, card i. The record has changed: `marked.replica` is the one for the next call, and goes to disk like any
 *     other state.
 *   - Keep the two frames with their signatures as evidence, two frames a card, and pass them on: to all once, and again to a card whose
 *     question shows that it lacks the mark, since cables lose frames. A mark is in one card's record and is that card's word; the
 *     signed frames convince every other. They are heard as two blocks, whoever sends them.
 *   - Tell the repairer the card's number and the round: it is to be replaced. Go on as before. A marked card still leads its rounds,
 *     and its later frames are judged as ever: a host that drops them comes to blame correct cards, since others take them. Marks are of
 *     one term: the next open begins with none, and what was found is the host's to keep.
 *   - Proved: while no frame is forged (signatures are checked, correct cards' keys kept), no correct card is ever marked, in the record
 *     of any card that is opened and called by the rules of State, whatever else is broken: neither more than f failures nor parted
 *     lists nor impatient blames matter. A mark is never cleared. Marks change no leader, no list, no commit: each call does the same
 *     with other marks.
 *   - A card that lost its state, was opened afresh and sent what it emitted is not correct, and may be marked: it did sign both. Two
 *     blocks that never come to one card are not found: no mark proves nothing.
 *
 * Entries
 *   - Lend each of open, branch, blame, blames and tick an entry: the call that brings a card to a round that it leads proposes it at
 *     once, an empty one too. That round is 1 for open, R + 1 for a blame, a set or a tick, the last frame's + 1 for a branch. A host
 *     that wants to wait for an entry withholds the branch, at most until w ticks after the card came to R. Ticks go on: w is in the
 *     timeout (Clock).
 *   - Lend an empty entry for a round above T - f, which the term does not commit, and while the card is behind (f + 1 cards have
 *     signed frames of rounds above R + 1, or told an R above R + 2): it may come to lead a round that the others passed over long ago.
 *   - The entry was used if the call emitted a block, and is on the list for good when that block's round is at most the committed
 *     round and its slot holds the block. Where the slot does not, the block was passed over: lend the entry again, never before. It
 *     then comes after later ones: where order matters, lend a card's next entry when the last is on the list.
 *   - A block is committed once R is more than f rounds above its own: each of the f rounds after it has its block, or else f + 1
 *     blames. So any taken call that moves R may commit, a blame, a set and a tick as well as a branch, though no block came with it:
 *     look at the committed round after every call, and act on the new entries in their order.
 *   - Cards that wait for the same round have committed the same list, while the premises hold. At R = T + 1 it has all blocks up to
 *     round T - f, also where the last rounds were passed over, and grows no more: act on all of it, and take all other entries into
 *     the next term, whose entries come after. Choose T well above f: with T up to f it is opened too, but no entry counts, and with T
 *     below f T - f wraps round in unsigned C.
 *
 * Clock
 *   - Call apollo_tick at a steady pace, after everything that has come was handed in. Missed ticks are not made up. No tick at the
 *     start of a term before every other card was heard (a question counts) or a time of grace is over; none while the card is behind.
 *     To withhold ticks costs progress only.
 *   - The timeout must let every correct leader's block come before any correct card blames the round, else lists part, with no card
 *     lying. Rule: 4 d + 2 ticks + w. d: the longest time from one card's call to another's, in ticks, with the repeats for lost
 *     datagrams and the pauses between questions and between answers; four times, because a new round is told to its leader, the leader
 *     asks for what it lacks, is answered, and sends its block. w: what a leader waits by itself. Three cards on cables of 0 to 20 ms:
 *     lists parted with timeouts of 5, 10 and 15 ms. Timeouts may differ from card to card.
 *
 * Every call takes any bytes and any record and answers with a number: 0 taken, else a refusal, and a refusal changes no record and no
 * lent buffer. What C cannot check is the caller's part: a pointer is valid for its length, in elements, and writable where it is not
 * const; no two buffers of one call overlap; no other thread touches them during the call. A pointer with length 0 may be null: an
 * empty entry is NULL, 0. Calls on different cards' buffers may run at the same time.
 */
#ifndef APOLLO_H
#define APOLLO_H

#include <stddef.h>
#include <stdint.h>

#ifdef __cplusplus
extern "C" {
#endif

/* Header and archive belong together: a host starts only where apollo_version() == APOLLO_VERSION. The number grows with every change
 * of a declaration here, of what a call does, or of what is promised of it. */
#define APOLLO_VERSION 6u
uint32_t apollo_version(void);

enum {
  APOLLO_FRAME = 512,        /* bytes of a frame and of a slot of the log */
  APOLLO_OUT = 1024,         /* an out buffer's least size: two frames */
  APOLLO_ENTRY = 400,        /* an entry's most bytes */
  APOLLO_DIGEST = 32,        /* bytes of a digest */
  APOLLO_MAX_F = 7,          /* most cards that may fail: n = 2 f + 1 */
  APOLLO_MAX_REPLICAS = 15,  /* most cards, n */
  APOLLO_MAX_BLAMES = 15,    /* most frames of a set of blames, whatever n is */
  APOLLO_MAX_ROUNDS = 4096,  /* most rounds of a term, T */
  APOLLO_MAX_TIMEOUT = 60000,
  APOLLO_NO_LEADER = 255     /* the leader told after a refusal, or when the term is over */
};

/* A frame: 512 bytes, numbers big-endian. What is not named is zero. The leader of round r is card rotation[(r - 1) mod n]: a block of
 * that round names no other signer. The calls judge every byte.
 *     0         kind: APOLLO_BLOCK or APOLLO_BLAME
 *     1         signer, a card's number
 *     2 to 3    in a block: length of the entry, 0 to 400
 *     4 to 7    round, 1 to T
 *     8 to 11   in a block: height, 1 to the round
 *     12 to 43  in a block: the parent's digest, zeros for none
 *     44 to 443 in a block: the entry, then zeros
 *     480 to 511 the frame's digest: SHA-256 of bytes 0 to 479 */
enum { APOLLO_BLOCK = 1, APOLLO_BLAME = 2 };

/* Refusals. The word in quotes is the one on the repair sheets, which have none for 16 to 18. */
typedef enum {
  APOLLO_TAKEN = 0,
  APOLLO_BAD_SETUP = 1,          /* "set-up": open: a number outside its range, or a log or masks of another length */
  APOLLO_BAD_REPLICA = 2,        /* "record": the other calls: the same, or a field out of range, or R up to T that this card leads
                                  * itself, or a rotation that 17 refuses or that is not zero past n, or a mark at bit n or above; the
                                  * record is no card's */
  APOLLO_ROUNDS_OVER = 3,        /* "term over": branch, blame, blames, tick: every round has been passed */
  APOLLO_OUT_TOO_SHORT = 4,      /* "short tray": the out buffer has less than 1,024 bytes */
  APOLLO_ENTRY_TOO_LONG = 5,     /* "long entry": the entry has more than 400 bytes */
  APOLLO_BAD_LENGTH = 6,         /* "cut": a branch that is not 1 to T whole frames, a blame not one, a set of blames not 1 to 15, an
                                  * equivocation not two */
  APOLLO_BAD_DIGEST = 7,         /* "check": a frame's digest is wrong; place: the frame's index */
  APOLLO_BAD_FORM = 8,           /* "form": a field outside the frame table, wrong kind or signer; place: the frame's index */
  APOLLO_NOT_CHILD = 9,          /* "parted": a frame is not the child of the one before; place: its index */
  APOLLO_STALE = 10,             /* "stale": the branch ends below the round waited for: keep it; or the blames are there already */
  APOLLO_UNATTACHED = 11,        /* "loose": the first frame's parent, with one height less, is not in the log. Get it or drop: above */
  APOLLO_REVERTS_COMMITTED = 12, /* "undone": a committed block would change: a premise is broken, see below */
  APOLLO_NOT_CERTIFIED = 13,     /* "unshown": a skipped round lacks f + 1 blames; place: that round. Again when it has them */
  APOLLO_EARLY = 14,             /* "early": blames for a round above the one waited for. Again when that has come */
  APOLLO_ABSENT = 15,            /* "absent": read: no such committed height; fetch: no frame above that height */
  APOLLO_NOT_A_SET = 16,         /* blames: frames of two rounds, or a signer twice: the host's own mistake */
  APOLLO_BAD_ROTATION = 17,      /* open: the rotation is not n bytes, lacks a card below n or has one twice */
  APOLLO_NOT_EQUIVOCATION = 18   /* equivocation: the two digests are equal, or the rounds differ: the host's own mistake */
} apollo_number;

/* 12 means that a premise of the agreement (docs/AGREEMENT.md) is broken: more than f cards failed in this term (one opened with another
 * f, T or rotation is one of them), a frame was forged, a correct card blamed a correct one's round, or two different frames share a
 * digest. Drop the branch, stop acting on the list, and call for repair. Lists that have parted may also show as a card that stands
 * still on 11 or 13, with no 12 at all: compare lists. */

/* Three counters that must not be mixed up: each is a type of its own. */
typedef struct { uint32_t value; } apollo_round;
typedef struct { uint32_t value; } apollo_height;
typedef struct { uint32_t value; } apollo_ticks;

/* A card's record. Read it; only the calls make one. */
typedef struct {
  uint8_t id;                     /* own number, below n */
  uint8_t f;                      /* how many cards may fail, 1 to 7 */
  apollo_ticks timeout;           /* ticks until a round's leader is blamed, 1 to 60,000 */
  apollo_round last_round;        /* T, 1 to 4,096 */
  apollo_round round;             /* R, the round waited for, 1 to T + 1 */
  apollo_ticks timer;             /* ticks left: the whole timeout again on each new round */
  apollo_round tip_round;         /* the newest block held, 0 for none */
  apollo_height tip_height;
  apollo_round committed_round;   /* the newest block of round R - 1 - f or below, 0 for none: renewed by every call in which R grows,
                                   * with a new block or without. This card will never undo it, nor will any other while the
                                   * premises hold */
  apollo_height committed_height;
  uint8_t rotation[APOLLO_MAX_REPLICAS]; /* who leads: card rotation[(r - 1) % n] round r. Zeros from rotation[n] on */
  uint16_t equivocators; /* bit i: card i signed two blocks for one round. Zero at open, never cleared, zeros from bit n on. For the
                          * repairer: no call goes by it */
} apollo_replica;

typedef struct {
  uint8_t number;         /* an apollo_number */
  uint8_t frames;         /* frames emitted, at the start of the out buffer: 0 to 2, a blame before a block. The block is in the log
                           * already and R is the round after it; the blame is in its mask */
  uint8_t leader;         /* the leader of the round now waited for, or APOLLO_NO_LEADER after a refusal and when the term is over */
  uint32_t place;         /* where a refusal's cause is: see the numbers; else 0 */
  apollo_replica replica; /* the record for the next call; after a refusal the one handed in (open: all zeros) */
} apollo_answer;

typedef struct {
  uint8_t number;
  size_t start, length; /* the entry is log[start] up to log[start + length - 1], in slot start / 512 + 1; both 0 when refused */
} apollo_part;

typedef struct {
  uint8_t number;
  size_t count; /* frames copied to the start of the out buffer: as many as there are or as it takes; 0 when refused */
} apollo_fetched;

typedef struct {
  uint8_t number;
  uint32_t place;         /* for 7 and 8 the frame's index, 0 or 1; else 0 */
  apollo_replica replica; /* the record for the next call; after a refusal the one handed in */
} apollo_marked;

/* Opens a card: zeroes log and masks and waits for round 1, or proposes at once if it leads round 1. Nothing is committed yet.
 * rotation: the numbers of all cards, 0 to n - 1, each once, in the order in which they lead, and rotation_len is n. Its first card
 * leads round 1, the next round 2, and after the last comes the first again. 0, 1, 2 and so on is one; docs/HOSTS.md says which are
 * good. All cards are given the same, and keep it for the term: it is copied into the record, and the lent bytes are not needed again.
 * log_len is 512 * T, masks_len is T, out_len at least 1,024, here and below. entry: what the card proposes if it comes to lead, 0 to
 * 400 bytes.
 * Slot r of the log, for the block of round r, begins at log[512 * (r - 1)] and is filled if that byte is 1. The filled slots are one
 * chain: a block's parent is in the next lower one. masks[r - 1] is round r's: bit i for card i's blame. A host may read both between
 * calls. Of the entries lent to open only that of the rotation's first card is used.
 * Refuses 1, 17, 4, 5. */
apollo_answer apollo_open(uint8_t id, uint8_t f, apollo_ticks timeout, apollo_round last_round, const uint8_t *rotation,
                          size_t rotation_len, uint8_t *log, size_t log_len, uint16_t *masks, size_t masks_len, const uint8_t *entry,
                          size_t entry_len, uint8_t *out, size_t out_len);

/* Hands in a branch: 1 to T block frames end to end, each the child of the one before. Taken, it replaces what the log held above its
 * parent. The card then waits for the next round, or proposes if it leads it, with the lent entry, and waits for the one after. The
 * committed round is renewed once, by the R that the call ends with.
 * Refuses 2 to 6, then 7, 8, 9 frame by frame, 10, 11, 13, 12. */
apollo_answer apollo_branch(apollo_replica replica, uint8_t *log, size_t log_len, const uint16_t *masks, size_t masks_len,
                            const uint8_t *frames, size_t frames_len, const uint8_t *entry, size_t entry_len, uint8_t *out,
                            size_t out_len);

/* Hands in one blame frame. With f + 1 blames the round waited for is passed over, the next one entered and the committed round renewed
 * as above: a block that waited for this round is committed, whether the card now proposes or not. A blame for an earlier round sets
 * its bit and nothing else: a branch that skips that round needs f + 1 of them.
 * Refuses 2 to 8, 14, 10. */
apollo_answer apollo_blame(apollo_replica replica, uint8_t *log, size_t log_len, uint16_t *masks, size_t masks_len,
                           const uint8_t *frame, size_t frame_len, const uint8_t *entry, size_t entry_len, uint8_t *out,
                           size_t out_len);

/* Hands in a set of blames: 1 to 15 blame frames of one round end to end, in any order, no signer twice. All their bits are set, or
 * none; bits that stand are passed over. The rest is as with one blame, once for the set: with f + 1 blames or more R grows by 1, the
 * next round is entered and the committed round renewed. A set of one is answered as apollo_blame answers that frame, and leaves the
 * same. The masks have the bits alone: the host keeps the signatures, and a set answered 14 until R has come.
 * Refuses 2 to 6, then 7, 8 frame by frame, 16, 14, 10. */
apollo_answer apollo_blames(apollo_replica replica, uint8_t *log, size_t log_len, uint16_t *masks, size_t masks_len,
                            const uint8_t *frames, size_t frames_len, const uint8_t *entry, size_t entry_len, uint8_t *out,
                            size_t out_len);

/* One tick of the clock. The tick that brings the timer to 0 emits the card's blame for the round waited for; if that is the last of
 * f + 1, the round is passed over as by a blame, and a block may be committed with it. Else the card waits on, and still takes the
 * round's block. With no ticks left nothing happens.
 * Refuses 2 to 5. */
apollo_answer apollo_tick(apollo_replica replica, uint8_t *log, size_t log_len, uint16_t *masks, size_t masks_len,
                          const uint8_t *entry, size_t entry_len, uint8_t *out, size_t out_len);

/* Shows the entry at a committed height, 1 for the oldest, as a part of the log. It walks up from slot 1: 53 ns for the newest entry of
 * a full log with T = 64, 10 us with T = 4,096 (docs/PERFORMANCE.md). To go through a long list, read the slots.
 * Refuses 2, 15. */
apollo_part apollo_read(apollo_replica replica, const uint8_t *log, size_t log_len, apollo_height height);

/* Copies blocks of the chain, those of a height above the given one, committed or not, to the start of out, lowest rounds first, for a
 * neighbour to hand in as a branch (Coming back). The count is exactly the smaller of the blocks that the chain has above that height
 * and the whole frames that out takes, out_len / 512. Later bytes of out are left as they are. A count below out_len / 512 says that
 * there are no more. Else go on from the height of the last frame copied, until it answers 15: if no call changed the card meanwhile,
 * that gives all, each once. It walks the log from the lowest slot until out is full: 0.8 us for all of 64 slots, 150 us for all of
 * 4,096, 2.5 us for 16 frames in the middle of 4,096.
 * Refuses 2, 4, 15, in this order. */
apollo_fetched apollo_fetch(apollo_replica replica, const uint8_t *log, size_t log_len, apollo_height height, uint8_t *out,
                            size_t out_len);

/* Hands in two blocks of one round, end to end, in any order: frames_len is 1,024. Taken, the round's leader is marked in the record (its
 * bit of `equivocators` is set) and nothing else changes; marked already, it is taken again and nothing changes at all. The frames need
 * not be linked, attached or certified, and may be of any round from 1 to T, also when the term is over: no log, masks, entry or out
 * buffer is lent. No call checks a signature: handed in unchecked, two frames that anyone wrote mark a correct card for good. The host
 * keeps the frames with their signatures, and the record.
 * Refuses 2 (by the record's own fields), 6, then 7, 8 of the first frame, of the second, 18. Where both were heard as above, 7 and 8 do
 * not come, and 18 is the host's own mistake. */
apollo_marked apollo_equivocation(apollo_replica replica, const uint8_t *frames, size_t frames_len);

/* The SHA-256 digest of some bytes: the check, and so the name, of a frame is that of its first 480 bytes. */
void apollo_digest(const uint8_t *bytes, size_t len, uint8_t digest[32]);

#ifdef __cplusplus
}
#endif

#endif
