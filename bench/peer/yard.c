/* The yard: which container stands in which cells. */
#include <stdlib.h>
#include <string.h>
#include "peer.h"

struct container *standing(struct yard *yard, struct text box) {
    void **found = find(&yard->boxes, box.at, box.length);
    return found ? *found : NULL;
}

/* The container in a cell; half counts the odd bays from 0. */
static struct container **cell(struct yard *yard, struct slot slot, int half, int tier) {
    return &yard->cells[slot.block][half][slot.row - 1][tier - 1];
}

/* The first and the last of the odd bays that a slot covers, counted from 0. */
static int first_half(struct slot slot) { return (slot.bay - 1) / 2; }
static int last_half(struct slot slot) { return slot.bay / 2; }

static bool is_carried(struct yard *yard, int length, struct slot slot, const struct container *without) {
    if (slot.tier == 1) return true;
    struct container *first = *cell(yard, slot, first_half(slot), slot.tier - 1);
    struct container *last = *cell(yard, slot, last_half(slot), slot.tier - 1);
    if (!first || !last || first == without || last == without) return false;
    if (length == 20) return first->length == 20;
    return (first->length == 20 && last->length == 20) || first == last;
}

static bool is_on_empty(struct yard *yard, struct slot slot) {
    return slot.tier > 1 && (!(*cell(yard, slot, first_half(slot), slot.tier - 1))->laden
        || !(*cell(yard, slot, last_half(slot), slot.tier - 1))->laden);
}

/* A container that is wary does not fit where an empty one carries it. */
const char *misfit(struct yard *yard, int length, struct slot slot, const struct container *without, bool is_wary) {
    const struct block *block = &yard->blocks[slot.block];
    if (slot.bay < 1 || slot.bay > 2 * block->bays - 1 || slot.row < 1 || slot.row > block->rows || slot.tier < 1
        || slot.tier > block->tiers) return "NoSlot";
    if ((slot.bay % 2 == 1) != (length == 20)) return "SlotKind";
    for (int half = first_half(slot); half <= last_half(slot); half++) {
        struct container *there = *cell(yard, slot, half, slot.tier);
        if (there && there != without) return "Taken";
    }
    if (!is_carried(yard, length, slot, without)) return "OnAir";
    return is_wary && is_on_empty(yard, slot) ? "OnEmpty" : NULL;
}

/* By tier, block, bay and row. */
bool first_slot(struct yard *yard, int length, bool is_wary, struct slot *found) {
    for (int tier = 1; tier <= 6; tier++)
        for (int block = 0; block < 26; block++)
            for (int bay = length == 20 ? 1 : 2; bay < 2 * yard->blocks[block].bays; bay += 2)
                for (int row = 1; row <= yard->blocks[block].rows; row++) {
                    *found = (struct slot){ block, bay, row, tier };
                    if (!misfit(yard, length, *found, NULL, is_wary)) return true;
                }
    return false;
}

struct container *blocker(struct yard *yard, const struct container *container) {
    struct slot slot = container->slot;
    if (slot.tier == 6) return NULL;
    for (int half = first_half(slot); half <= last_half(slot); half++)
        if (*cell(yard, slot, half, slot.tier + 1)) return *cell(yard, slot, half, slot.tier + 1);
    return NULL;
}

static void fill(struct yard *yard, struct slot slot, struct container *with) {
    for (int half = first_half(slot); half <= last_half(slot); half++) *cell(yard, slot, half, slot.tier) = with;
}

void stand(struct yard *yard, struct container *container) { fill(yard, container->slot, container); }

void unstand(struct yard *yard, const struct container *container) { fill(yard, container->slot, NULL); }

bool read_slot(struct text text, struct slot *slot) {
    struct text digits = { text.at + 1, text.length - 1 };
    if (text.length != 7 || text.at[0] < 'A' || text.at[0] > 'Z' || !are_digits(digits, 6, 6)) return false;
    long number = number_of(digits);
    *slot = (struct slot){ text.at[0] - 'A', number / 1000, number / 10 % 100, number % 10 };
    return true;
}

void slot_name(struct slot slot, char name[8]) {
    const char digits[8] = { 'A' + slot.block, '0' + slot.bay / 100, '0' + slot.bay / 10 % 10, '0' + slot.bay % 10, '0' + slot.row / 10,
        '0' + slot.row % 10, '0' + slot.tier, 0 };
    memcpy(name, digits, 8);
}

/* Slots by their names. */
static int order_of(struct slot slot) { return ((slot.block * 1000 + slot.bay) * 100 + slot.row) * 10 + slot.tier; }

static int by_slot(const void *one, const void *other) {
    return order_of((*(struct container *const *)one)->slot) - order_of((*(struct container *const *)other)->slot);
}

void yard_report(struct yard *yard, struct buffer *to) {
    struct container **all = malloc((yard->boxes.count + 1) * sizeof *all);
    size_t count = 0;
    for (size_t i = 0; i < yard->boxes.room; i++)
        for (struct entry *entry = yard->boxes.buckets[i]; entry; entry = entry->next) all[count++] = entry->value;
    qsort(all, count, sizeof *all, by_slot);
    append_word(to, "YARD\n");
    for (size_t i = 0; i < count; i++) {
        char name[8];
        slot_name(all[i]->slot, name);
        append(to, name, 7);
        append(to, " ", 1);
        append(to, all[i]->box, 11);
        append(to, " ", 1);
        append(to, all[i]->size, 4);
        append_word(to, all[i]->laden ? " FULL\n" : " EMPTY\n");
    }
    append_number(to, count);
    append_word(to, " CONTAINERS\n");
    free(all);
}
