/* What the parts of the peer share. The peer does what `office deliver DB -` and `office serve` do, with libsqlite3, for
   interchanges without faults; a faulty one is refused by a name alone. It knows the default service characters only. */
#ifndef PEER_H
#define PEER_H

#include <stdbool.h>
#include <stddef.h>

/* Bytes that stand somewhere, and bytes that grow. */
struct text { const char *at; size_t length; };
struct buffer { char *at; size_t length, room; };

void reserve(struct buffer *buffer, size_t more);
void append(struct buffer *buffer, const char *at, size_t length);
void append_word(struct buffer *buffer, const char *word);
void append_text(struct buffer *buffer, struct text text);
void append_number(struct buffer *buffer, long number);
void append_json(struct buffer *buffer, const char *at, size_t length);
bool is(struct text text, const char *word);
bool is_same(struct text one, struct text other);
bool are_digits(struct text text, size_t least, size_t most);
long number_of(struct text text);
void die(const char *why);

/* The segments of an interchange, with all their values. */
struct component { unsigned element, place; struct text value; };
struct segment { struct text tag; size_t first, count; };
struct interchange {
    struct segment *segments;
    struct component *components;
    size_t count, room, used, components_room;
    struct buffer values;
};

const char *read_segments(struct interchange *interchange, struct text text);
struct text value(const struct interchange *interchange, size_t segment, unsigned element, unsigned place);
void spell_element(struct buffer *to, const struct interchange *interchange, size_t segment, unsigned element, unsigned most);
struct text trimmed(struct text text);

/* Where the next interchange of a stream ends. */
struct cutter { size_t scanned, segment; };
size_t cut(struct cutter *cutter, const char *at, size_t length);

/* A map from bytes to pointers. */
struct entry { struct entry *next; unsigned hash; void *value; size_t length; char key[]; };
struct map { struct entry **buckets; size_t room, count; };
void **find(struct map *map, const char *key, size_t length);
void put(struct map *map, const char *key, size_t length, void *value);
void take_out(struct map *map, const char *key, size_t length);

/* The yard: blocks by letter, and the container in each cell. */
struct slot { int block, bay, row, tier; };
struct container { char box[12], size[5]; int laden, length; long visit; struct slot slot; };
struct block { int bays, rows, tiers; };
struct yard { struct block blocks[26]; struct container *cells[26][40][12][6]; struct map boxes; };

struct container *standing(struct yard *yard, struct text box);
const char *misfit(struct yard *yard, int length, struct slot slot, const struct container *without, bool is_wary);
bool first_slot(struct yard *yard, int length, bool is_wary, struct slot *slot);
struct container *blocker(struct yard *yard, const struct container *container);
void stand(struct yard *yard, struct container *container);
void unstand(struct yard *yard, const struct container *container);
bool read_slot(struct text text, struct slot *slot);
void slot_name(struct slot slot, char name[8]);
void yard_report(struct yard *yard, struct buffer *to);

/* What a line orders. */
enum action { GATE_IN, GATE_OUT, MOVE, LIST_DISCHARGE, LIST_LOAD, DISCHARGE, LOAD, ACTIONS };
struct order {
    enum action action;
    size_t message;
    struct text box, size, booking, port, vessel, voyage;
    bool laden, names_slot, has_weight;
    long kilos;
    struct slot slot;
    char moment[12];
};
struct orders { struct order *items; size_t count, room; };

/* The statements, each prepared once. */
enum statement {
    BEGIN, COMMIT, KEPT, KEEP, SET_REPLY, SET_NEXT, OPEN_VISIT, CLOSE_VISIT, ADD_PLACE, SET_SLOT, DELETE_PLACE, ADD_LINE,
    SET_DONE, STATEMENTS
};

/* The office: its store, and beside it the accounts, the yard and the lists. */
struct partner { char code[36]; int id, kind; long next; };
struct office {
    void *store;
    void *statements[STATEMENTS];
    bool is_stored;
    char terminal[36], codes[ACTIONS][4];
    struct map partners, lines;
    struct yard yard;
    long visits, most_visits;
    struct interchange interchange;
    struct orders orders;
    struct buffer answer, reply, contrl, behind;
};

void open_store(struct office *office, const char *path, bool is_stored);
void read_all_rows(struct office *office);
void run(struct office *office, enum statement which, const char *kinds, ...);
bool kept(struct office *office, int partner, long number, struct text *body, struct text *reply);
void done_with_kept(struct office *office);
const char *read_orders(struct office *office, const struct partner *partner);
void carry_out(struct office *office, const struct order *order, int partner, long number, long line);
void write_contrl(struct office *office);
const char *deliver(struct office *office, struct text delivered);
int serve(struct office *office, int port, long count);

#endif
