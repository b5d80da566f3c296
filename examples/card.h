/* card.h: a host for one card, for your program to copy with card.c. It lends the calls of apollo.h what they need, keeps the frames
 * that may be needed again, sends, asks and answers by the rules of docs/HOSTS.md. Your program brings cables, keys and a clock: the
 * functions host_.. below. examples/cabinet does so for a whole cabinet in one process, with simulated ones. */
#ifndef CARD_H
#define CARD_H

#include "apollo.h"

enum {
  NUMBERS = APOLLO_NOT_EQUIVOCATION + 1, /* that the library answers: 0 and the refusals */
  SIGNATURE = 32,                        /* bytes of a signature: 64 for Ed25519 */
  WINDOW = 32, /* rounds above the committed one whose blocks are kept, and that an answer has: 2 f + 1 at least (docs/HOSTS.md) */
  TRAY = 16,   /* most frames of an answer to a card that fetches, up to WINDOW */
  LINE = 64    /* entries that wait to be proposed */
};

/* ---- what travels between hosts */

enum { PACKET_BLOCK = 1, PACKET_BLAMES, PACKET_STATUS, PACKET_FETCH, PACKET_TRAY, PACKET_EVIDENCE, PACKET_KINDS };

/* A block with its signer's signature (byte 1 of the frame says whose), whoever passes it on. */
typedef struct {
  uint8_t frame[APOLLO_FRAME], signature[SIGNATURE];
} signed_block;

/* The blames of one round, as they travel and as they are kept. Round and signer make the frame, so signatures are enough: that of card
 * i counts if bit i is set. */
typedef struct {
  uint32_t round;
  uint16_t signers;
  uint8_t signature[APOLLO_MAX_REPLICAS][SIGNATURE];
} signed_blames;

/* Where a card stands. It asks a card that is ahead for what is missing, and shows whether two lists have parted. */
typedef struct {
  uint32_t round;        /* waited for */
  uint16_t signers;      /* of the blames held for that round */
  uint16_t equivocators; /* the cards that it has marked: it is sent evidence against others */
  uint32_t committed;    /* the committed round, and its block's digest */
  uint8_t digest[APOLLO_DIGEST];
} card_status;

/* What a card that comes back asks one neighbour for: the frames above a height or, with a round, the blames of that round and of the
 * rounds above it that the neighbour passed over. */
typedef struct {
  uint32_t height, round; /* round 0: frames, */
  uint32_t room;          /* so many at most, 2 to TRAY */
} card_fetch;

/* The frames that apollo_fetch gave above that height, with their signatures: as many as there was room for, or else all. */
typedef struct {
  uint32_t height, room, count;
  signed_block blocks[TRAY];
} card_tray;

/* Two different blocks of one round: with their leader's signature under each they prove to every card that it signed both. */
typedef struct {
  signed_block blocks[2];
} card_evidence;

/* A packet of one term, from a card that is known to have sent it: real cables carry bytes, and size, term and the sender's own
 * signature are looked at before card_hear. Blocks are kept and questions answered by sender. */
typedef struct {
  uint8_t kind, from;
  union {
    signed_block block;
    signed_blames blames;
    card_status status;
    card_fetch fetch;
    card_tray tray;
    card_evidence evidence;
  };
} packet;

/* How many bytes of a packet travel, by its kind: what comes with another size is dropped. */
size_t packet_size(const packet *p);

/* ---- one card */

typedef struct {
  /* What all cards of a term share, and every signature covers. */
  uint8_t f;
  uint8_t rotation[APOLLO_MAX_REPLICAS]; /* the numbers of all cards, 2 f + 1 of them, in the order in which they lead */
  uint32_t rounds;                       /* T */
  /* The card's own. */
  uint8_t id;
  uint32_t timeout; /* ticks until a round's leader is blamed: the rule is in docs/HOSTS.md */
  uint32_t retry;   /* ticks without a new round until all is sent and asked for again; a question and its answer take less than 9 times
                     * that, or a card that was away never comes back */
  uint32_t idle;    /* ticks that the card puts its round off while no entry waits */
  uint32_t grace;   /* ticks after the opening in which no time runs for the card, unless it has heard all others before */
  uint32_t tray;    /* most frames that it asks for at once when it comes back, 2 to TRAY */
} card_setup;

typedef struct {
  signed_block block;
  int used;
  uint32_t tried;                 /* the card's progress when it was last handed in, 0 for never */
  uint8_t number;                 /* how the library answered it then */
  uint32_t place;                 /* after 13: the round that lacks blames */
  uint8_t missing[APOLLO_DIGEST]; /* after 11: the parent that is not there */
} kept_block;

typedef struct {
  uint8_t entry[APOLLO_ENTRY];
  size_t len;
  uint32_t round; /* of the block that it was proposed in, 0 while it waits; and that block's digest */
  uint8_t digest[APOLLO_DIGEST];
} proposal;

/* What a card that comes back fetches from one neighbour: its chain above the own committed height, to be handed in as a branch. */
typedef struct {
  int from, active;                /* the card that is asked, and whether it is now */
  uint32_t base, count;            /* the committed height when it began, and the frames that have come */
  uint8_t *frames;                 /* end to end, T at most, */
  uint8_t (*signature)[SIGNATURE]; /* and their signatures */
  uint32_t lacks;                  /* the round whose blames are asked for, 0 while it is frames */
  uint32_t asked, tries;           /* when and how often the question was sent */
} card_run;

typedef struct {
  card_setup setup;
  apollo_replica record; /* record, log and masks are the card's state: no one but the calls changes them */
  uint8_t *log;
  uint16_t *masks;
  uint8_t (*signature)[SIGNATURE];              /* of the block in each slot */
  signed_blames *blames;                        /* of each round; the masks say which of them the library has */
  kept_block kept[APOLLO_MAX_REPLICAS][WINDOW]; /* by sender and round: no sender pushes out what another sent */
  card_evidence evidence[APOLLO_MAX_REPLICAS];  /* against each card that the record marks */
  uint8_t frames[WINDOW * APOLLO_FRAME];        /* of the call under way: a branch, the blames of a round, or a tray */
  proposal line[LINE];                          /* entries until they are on the list, oldest first */
  size_t lined;
  uint32_t now, moved;                  /* ticks since the opening, and at the last new round */
  uint32_t closed[APOLLO_MAX_REPLICAS]; /* until when a card's questions are not answered again */
  uint32_t served[APOLLO_MAX_REPLICAS]; /* the same for one that fetches, */
  uint32_t shown[APOLLO_MAX_REPLICAS];  /* and for evidence that is sent again */
  uint32_t seen[APOLLO_MAX_REPLICAS];   /* the highest round in a frame that this card signed, or that it says it has passed */
  uint32_t acted;                       /* rounds whose entries were handed to host_act */
  uint16_t heard, ask;                  /* cards that were heard; cards to ask at the end of the tick */
  int next_peer;
  card_run run;
  uint32_t progress;         /* grows with every new frame and every new round: only then is anything tried again */
  uint32_t again;            /* entries put back in line because their blocks were passed over */
  uint32_t answers[NUMBERS]; /* of the library, by number */
  /* Of a card that came back: runs begun, questions for frames and for blames that were answered, questions sent again. */
  uint32_t runs, frames_got, blames_got, asked_again;
} card;

/* 0 if the set-up is refused, the archive is of another version or memory is short. Close it in any case. */
int card_open(card *c, card_setup setup);
void card_close(card *c);
/* Puts an entry of 1 to 400 bytes in line; 0 if it does not fit. It stays in `line` until it is on the list; what is left there when
 * the term is over goes into the next one. One whose block was passed over comes after later ones: where their order matters, propose
 * the next when `line` is empty. */
int card_propose(card *c, const uint8_t *entry, size_t len);
/* A packet that came off the cable. */
void card_hear(card *c, const packet *p);
/* One tick, after everything that has come was heard. Ticks that the program missed are not made up. */
void card_tick(card *c);
int card_is_over(const card *c);

/* ---- what your program brings */

void host_send(int from, int to, const packet *p);
/* Signs a frame of the card that is set up so, for this term. The signature covers what all cards share: n, f, T and the rotation, as
 * this card has them, the term's number and all public keys. */
void host_sign(const card_setup *setup, const uint8_t frame[APOLLO_FRAME], uint8_t signature[SIGNATURE]);
/* Is it the signature of the frame's signer, byte 1, for this term and for what the card that asks shares with the others? */
int host_verify(const card_setup *setup, const uint8_t frame[APOLLO_FRAME], const uint8_t signature[SIGNATURE]);
/* An entry is on the list for good: act on it. In the order of the list, each once. An empty entry is not told. */
void host_act(int id, uint32_t round, const uint8_t *entry, size_t len);
/* Something that a repairer must see. */
typedef enum {
  ALARM_STATE,  /* the library answered 2: record, log or masks were changed */
  ALARM_UNDONE, /* the library answered 12: a premise of the agreement is broken */
  ALARM_PARTED, /* card `other` says that it has another block committed there: the lists have parted, or it lies */
  ALARM_DOUBLE, /* card `other` signed two blocks for that round, and is marked: it is to be replaced. Once for each card */
  ALARM_KINDS
} alarm_kind;
void host_alarm(int id, alarm_kind kind, int other, uint32_t round);
/* A call that the card made, and how it was answered. The card has its new record; nothing of what was emitted is sent yet. For a log
 * of the card's doings, or a picture: do nothing if you need neither. */
typedef enum { CALL_OPEN, CALL_BRANCH, CALL_BLAMES, CALL_TICK, CALL_EQUIVOCATION, CALL_FETCH } call_kind;
typedef struct {
  call_kind kind;
  const uint8_t *in, *out; /* the frames handed in, and those emitted or fetched, end to end; */
  size_t ins, outs;        /* how many */
  uint8_t number;
  uint32_t place;
} card_call;
void host_note(const card *c, const card_call *call);

#endif
