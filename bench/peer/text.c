/* Bytes, segments, the cutting of a stream, and a map. */
#include <stdio.h>
#include <stdlib.h>
#include <string.h>
#include "peer.h"

void die(const char *why) {
    fprintf(stderr, "peer: %s\n", why);
    exit(3);
}

void reserve(struct buffer *buffer, size_t more) {
    if (buffer->length + more <= buffer->room) return;
    buffer->room = 2 * (buffer->length + more);
    buffer->at = realloc(buffer->at, buffer->room);
    if (!buffer->at) die("memory");
}

void append(struct buffer *buffer, const char *at, size_t length) {
    reserve(buffer, length);
    memcpy(buffer->at + buffer->length, at, length);
    buffer->length += length;
}

void append_word(struct buffer *buffer, const char *word) { append(buffer, word, strlen(word)); }

void append_text(struct buffer *buffer, struct text text) { append(buffer, text.at, text.length); }

void append_number(struct buffer *buffer, long number) {
    char digits[24];
    append(buffer, digits, snprintf(digits, sizeof digits, "%ld", number));
}

/* A string of JSON without its quotes; the bytes are printable. */
void append_json(struct buffer *buffer, const char *at, size_t length) {
    for (size_t i = 0; i < length; i++) {
        if (at[i] == '"' || at[i] == '\\') append(buffer, "\\", 1);
        append(buffer, at + i, 1);
    }
}

bool is(struct text text, const char *word) {
    return text.length == strlen(word) && memcmp(text.at, word, text.length) == 0;
}

bool is_same(struct text one, struct text other) {
    return one.length == other.length && memcmp(one.at, other.at, one.length) == 0;
}

bool are_digits(struct text text, size_t least, size_t most) {
    if (text.length < least || text.length > most) return false;
    for (size_t i = 0; i < text.length; i++) if (text.at[i] < '0' || text.at[i] > '9') return false;
    return true;
}

long number_of(struct text text) {
    long number = 0;
    for (size_t i = 0; i < text.length; i++) number = 10 * number + (text.at[i] - '0');
    return number;
}

/* ---- segments */

static struct component *next_component(struct interchange *all) {
    if (all->used == all->components_room) {
        all->components_room = 2 * all->components_room + 64;
        all->components = realloc(all->components, all->components_room * sizeof *all->components);
        if (!all->components) die("memory");
    }
    return &all->components[all->used++];
}

static struct segment *next_segment(struct interchange *all) {
    if (all->count == all->room) {
        all->room = 2 * all->room + 16;
        all->segments = realloc(all->segments, all->room * sizeof *all->segments);
        if (!all->segments) die("memory");
    }
    return &all->segments[all->count++];
}

static size_t past_breaks(struct text text, size_t at) {
    while (at < text.length && (text.at[at] == '\r' || text.at[at] == '\n')) at++;
    return at;
}

/* The values of the segment whose tag ends before `at`; gives the place behind its terminator, or 0 for a fault. */
static size_t read_values(struct interchange *all, struct text text, size_t at) {
    unsigned element = 0, place = 1;
    struct component *component = NULL;
    for (; at < text.length; at++) {
        char byte = text.at[at];
        if (byte == '\'') return at + 1;
        if (byte == '+' || byte == ':') {
            if (byte == ':' && !component) return 0;
            place = byte == '+' ? 1 : place + 1;
            if (byte == '+') element++;
            component = next_component(all);
            *component = (struct component){ element, place, { all->values.at + all->values.length, 0 } };
            continue;
        }
        if (byte == '?') byte = ++at < text.length ? text.at[at] : 0;
        if (!component || (unsigned char)byte < 32 || byte == 127) return 0;
        all->values.at[all->values.length++] = byte;
        component->value.length++;
    }
    return 0;
}

const char *read_segments(struct interchange *all, struct text text) {
    all->count = all->used = all->values.length = 0;
    reserve(&all->values, text.length);
    for (size_t at = 0; at < text.length; at = past_breaks(text, at)) {
        if (at + 3 >= text.length) return "Segment";
        struct segment *segment = next_segment(all);
        segment->tag = (struct text){ text.at + at, 3 };
        segment->first = all->used;
        at = read_values(all, text, at + 3);
        if (at == 0) return "Segment";
        segment->count = all->used - segment->first;
    }
    return NULL;
}

struct text value(const struct interchange *all, size_t segment, unsigned element, unsigned place) {
    const struct segment *found = &all->segments[segment];
    for (size_t i = found->first; i < found->first + found->count; i++) {
        const struct component *component = &all->components[i];
        if (component->element == element && component->place == place) return component->value;
        if (component->element > element) break;
    }
    return (struct text){ "", 0 };
}

/* An element anew, with at most so many components, without those that are empty at its end. */
void spell_element(struct buffer *to, const struct interchange *all, size_t segment, unsigned element, unsigned most) {
    unsigned last = most;
    while (last > 0 && value(all, segment, element, last).length == 0) last--;
    for (unsigned place = 1; place <= last; place++) {
        struct text text = value(all, segment, element, place);
        if (place > 1) append(to, ":", 1);
        for (size_t i = 0; i < text.length; i++) {
            if (strchr(":+?'", text.at[i])) append(to, "?", 1);
            append(to, text.at + i, 1);
        }
    }
}

struct text trimmed(struct text text) {
    while (text.length > 0 && strchr("\r\n", text.at[text.length - 1])) text.length--;
    while (text.length > 0 && strchr("\r\n", text.at[0])) { text.at++; text.length--; }
    return text;
}

/* How long the interchange at the front of a stream is, or 0 if it has not ended yet. */
size_t cut(struct cutter *cutter, const char *at, size_t length) {
    size_t i = cutter->scanned, segment = cutter->segment;
    for (; i < length; i++) {
        if (at[i] == '?') { i++; continue; }
        if (i == segment && (at[i] == '\r' || at[i] == '\n')) { segment++; continue; }
        if (at[i] != '\'') continue;
        bool is_end = i - segment >= 3 && memcmp(at + segment, "UNZ", 3) == 0;
        segment = i + 1;
        if (!is_end) continue;
        *cutter = (struct cutter){ 0, 0 };
        return i + 1;
    }
    *cutter = (struct cutter){ i, segment };
    return 0;
}

/* ---- a map */

static unsigned hash_of(const char *key, size_t length) {
    unsigned hash = 2166136261u;
    for (size_t i = 0; i < length; i++) hash = (hash ^ (unsigned char)key[i]) * 16777619u;
    return hash ^ hash >> 15;
}

static struct entry **place_of(struct map *map, const char *key, size_t length, unsigned hash) {
    struct entry **entry = &map->buckets[hash & (map->room - 1)];
    while (*entry && !((*entry)->hash == hash && (*entry)->length == length && memcmp((*entry)->key, key, length) == 0))
        entry = &(*entry)->next;
    return entry;
}

void **find(struct map *map, const char *key, size_t length) {
    if (map->room == 0) return NULL;
    struct entry *entry = *place_of(map, key, length, hash_of(key, length));
    return entry ? &entry->value : NULL;
}

static void grow(struct map *map) {
    struct map larger = { calloc(map->room ? 2 * map->room : 1024, sizeof *map->buckets), map->room ? 2 * map->room : 1024, map->count };
    if (!larger.buckets) die("memory");
    for (size_t i = 0; i < map->room; i++)
        for (struct entry *entry = map->buckets[i], *next; entry; entry = next) {
            next = entry->next;
            struct entry **bucket = &larger.buckets[entry->hash & (larger.room - 1)];
            entry->next = *bucket;
            *bucket = entry;
        }
    free(map->buckets);
    *map = larger;
}

void put(struct map *map, const char *key, size_t length, void *value) {
    if (map->count >= map->room) grow(map);
    unsigned hash = hash_of(key, length);
    struct entry **place = &map->buckets[hash & (map->room - 1)], *entry = malloc(sizeof *entry + length);
    if (!entry) die("memory");
    *entry = (struct entry){ *place, hash, value, length };
    memcpy(entry->key, key, length);
    *place = entry;
    map->count++;
}

void take_out(struct map *map, const char *key, size_t length) {
    struct entry **place = place_of(map, key, length, hash_of(key, length)), *entry = *place;
    if (!entry) return;
    *place = entry->next;
    free(entry);
    map->count--;
}
