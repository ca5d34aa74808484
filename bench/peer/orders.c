/* What the messages of an interchange order, and what carrying an order out does and answers. */
#include <stdio.h>
#include <stdlib.h>
#include <string.h>
#include "peer.h"

/* The type of the message, and the kind of partner who may send it. */
static const struct { const char *type; int kind; } rules[ACTIONS] = {
    [GATE_IN] = { "CODECO", 1 }, [GATE_OUT] = { "CODECO", 1 }, [MOVE] = { "CODECO", 4 },
    [LIST_DISCHARGE] = { "COPRAR", 2 }, [LIST_LOAD] = { "COPRAR", 2 }, [DISCHARGE] = { "COARRI", 3 }, [LOAD] = { "COARRI", 3 },
};

static bool reads_size(enum action action) { return action == GATE_IN || action == DISCHARGE; }

static bool is_count(struct text text, size_t count) { return are_digits(text, 1, 6) && number_of(text) == (long)count; }

static bool is_box(struct text text) {
    static const int values[26] = { 10, 12, 13, 14, 15, 16, 17, 18, 19, 20, 21, 23, 24, 25, 26, 27, 28, 29, 30, 31, 32, 34, 35, 36, 37, 38 };
    int sum = 0;
    if (text.length != 11 || !are_digits((struct text){ text.at + 4, 7 }, 7, 7) || !memchr("UJZ", text.at[3], 3)) return false;
    for (int i = 0; i < 10; i++) {
        if (i < 4 && (text.at[i] < 'A' || text.at[i] > 'Z')) return false;
        sum += (i < 4 ? values[text.at[i] - 'A'] : text.at[i] - '0') << i;
    }
    return sum % 11 % 10 == text.at[10] - '0';
}

static bool is_moment(const char moment[12]) {
    static const int days[13] = { 0, 31, 28, 31, 30, 31, 30, 31, 31, 30, 31, 30, 31 };
    if (!are_digits((struct text){ moment, 12 }, 12, 12)) return false;
    long year = number_of((struct text){ moment, 4 }), month = number_of((struct text){ moment + 4, 2 });
    long day = number_of((struct text){ moment + 6, 2 });
    bool is_leap = year % 400 == 0 || (year % 4 == 0 && year % 100 != 0);
    return month >= 1 && month <= 12 && day >= 1 && day <= days[month] + (month == 2 && is_leap)
        && number_of((struct text){ moment + 8, 2 }) <= 23 && number_of((struct text){ moment + 10, 2 }) <= 59;
}

static struct text kept_text(struct text text) {
    bool is_kept = text.length >= 1 && text.length <= 35;
    for (size_t i = 0; is_kept && i < text.length; i++) is_kept = text.at[i] >= ' ' && text.at[i] <= '~';
    return is_kept ? text : (struct text){ "", 0 };
}

static struct order *next_order(struct orders *orders) {
    if (orders->count == orders->room) {
        orders->room = 2 * orders->room + 16;
        orders->items = realloc(orders->items, orders->room * sizeof *orders->items);
        if (!orders->items) die("memory");
    }
    return &orders->items[orders->count++];
}

/* Puts what a segment of a group says into its order, if it is the first to say so. */
static const char *read_detail(const struct interchange *all, size_t at, struct order *order, bool *has_moment) {
    struct text tag = all->segments[at].tag, what = value(all, at, 1, 1);
    if (is(tag, "RFF") && is(what, "BN") && !order->booking.at) order->booking = kept_text(value(all, at, 1, 2));
    if (is(tag, "MEA") && is(value(all, at, 2, 1), "G") && is(value(all, at, 3, 1), "KGM") && !order->has_weight) {
        struct text weight = value(all, at, 3, 2);
        order->kilos = are_digits(weight, 1, 6) ? number_of(weight) : 0;
        order->has_weight = true;
    }
    if (is(tag, "LOC") && is(what, "11") && !order->port.at) order->port = kept_text(value(all, at, 2, 1));
    if (is(tag, "LOC") && is(what, "ZZZ") && (reads_size(order->action) || order->action == MOVE) && !order->names_slot) {
        struct text name = value(all, at, 2, 1);
        if (name.length > 0 && !read_slot(name, &order->slot)) return "SlotText";
        order->names_slot = name.length > 0;
    }
    if (is(tag, "DTM") && !*has_moment && (is(value(all, at, 1, 3), "203") || is(value(all, at, 1, 3), "102"))) {
        struct text moment = value(all, at, 1, 2);
        size_t length = is(value(all, at, 1, 3), "203") ? 12 : 8;
        if (moment.length != length) return "Moment";
        memcpy(order->moment, moment.at, length);
        memset(order->moment + length, '0', 12 - length);
        if (!is_moment(order->moment)) return "Moment";
        *has_moment = true;
    }
    return NULL;
}

/* The orders of the groups of a message from the segment `at` on, each beginning as the order `first` does. */
static const char *read_groups(struct office *office, size_t at, size_t end, const struct order *first) {
    const struct interchange *all = &office->interchange;
    struct order *order = NULL;
    bool has_moment = false;
    for (; at < end; at++) {
        const char *fault = NULL;
        if (is(all->segments[at].tag, "CNT")) order = NULL;
        if (!is(all->segments[at].tag, "EQD")) {
            if (order) fault = read_detail(all, at, order, &has_moment);
            if (fault) return fault;
            continue;
        }
        if (!is(value(all, at, 1, 1), "CN")) return "Equipment";
        order = next_order(&office->orders);
        *order = *first;
        order->box = value(all, at, 2, 1);
        order->size = value(all, at, 3, 1);
        order->laden = !is(value(all, at, 6, 1), "4");
        has_moment = false;
        if (!is_box(order->box)) return "Box";
        if (reads_size(order->action) && (order->size.length != 4 || !memchr("24L", order->size.at[0], 3))) return "Size";
    }
    return NULL;
}

/* The orders of one message, from its UNH to its UNT. */
static const char *read_message(struct office *office, size_t from, size_t end, const struct partner *partner) {
    const struct interchange *all = &office->interchange;
    struct order first = { .action = ACTIONS, .message = from };
    size_t at = from + 1;
    if (!is_count(value(all, end, 1, 1), end - from + 1)) return "SegmentCount";
    if (!is_same(value(all, end, 2, 1), value(all, from, 1, 1))) return "MessageReference";
    for (; at < end && !is(all->segments[at].tag, "EQD"); at++) {
        if (is(all->segments[at].tag, "BGM") && first.action == ACTIONS)
            for (int i = 0; i < ACTIONS; i++)
                if (is(value(all, from, 2, 1), rules[i].type) && is(value(all, at, 1, 1), office->codes[i])
                    && partner->kind == rules[i].kind) first.action = i;
        if (is(all->segments[at].tag, "TDT") && is(value(all, at, 1, 1), "20") && !first.voyage.at) {
            first.voyage = value(all, at, 2, 1);
            first.vessel = value(all, at, 8, 1);
        }
    }
    if (first.action == ACTIONS) return "Code";
    memcpy(first.moment, "20", 2);
    memcpy(first.moment + 2, value(all, 0, 4, 1).at, 6);
    memcpy(first.moment + 8, value(all, 0, 4, 2).at, 4);
    return read_groups(office, at, end, &first);
}

/* The orders of all messages of an interchange, or the name of a fault. */
const char *read_orders(struct office *office, const struct partner *partner) {
    const struct interchange *all = &office->interchange;
    office->orders.count = 0;
    size_t begun = 0, messages = 0;
    for (size_t at = 1; at + 1 < all->count; at++) {
        if (is(all->segments[at].tag, "UNH")) begun = at;
        if (!begun) return "MessageFrame";
        if (!is(all->segments[at].tag, "UNT")) continue;
        const char *fault = read_message(office, begun, at, partner);
        if (fault) return fault;
        begun = 0;
        messages++;
    }
    if (begun || messages == 0) return "MessageFrame";
    return is_count(value(all, all->count - 1, 1, 1), messages) ? NULL : "ControlCount";
}

/* ---- carrying out */

static void answer(struct office *office, const struct order *order, long line, const char *outcome, const char *more, const char *value) {
    struct buffer *to = &office->reply;
    append_word(to, "\"box\":\"");
    append_text(to, order->box);
    append_word(to, "\",\"line\":");
    append_number(to, line);
    append_word(to, ",\"outcome\":\"");
    append_word(to, outcome);
    if (more) {
        append_word(to, more);
        append_word(to, value);
    }
    append_word(to, "\"}");
}

static void refuse(struct office *office, const struct order *order, long line, const char *reason, const struct container *above) {
    if (above) {
        append_word(&office->reply, "\"blocker\":\"");
        append_word(&office->reply, above->box);
        append_word(&office->reply, "\",");
    }
    answer(office, order, line, "refused", "\",\"reason\":\"", reason);
}

static void done_in(struct office *office, const struct order *order, long line, struct slot slot) {
    char name[8];
    slot_name(slot, name);
    answer(office, order, line, "done", "\",\"slot\":\"", name);
}

static struct text name_text(const char *name) { return (struct text){ name, strlen(name) }; }

/* Opens a visit, or gives the reason why not. */
static const char *enter(struct office *office, const struct order *order, int partner, long number, struct slot *slot) {
    int length = order->size.at[0] == '2' ? 20 : 40;
    if (office->visits >= office->most_visits) return "VisitLimit";
    *slot = order->slot;
    if (!order->names_slot && !first_slot(&office->yard, length, order->laden, slot)) return "NoRoom";
    const char *reason = misfit(&office->yard, length, *slot, NULL, order->laden);
    if (reason) return reason;
    struct container *container = malloc(sizeof *container);
    if (!container) die("memory");
    *container = (struct container){ .laden = order->laden, .length = length, .visit = ++office->visits, .slot = *slot };
    memcpy(container->box, order->box.at, 11);
    memcpy(container->size, order->size.at, 4);
    stand(&office->yard, container);
    put(&office->yard.boxes, container->box, 11, container);
    char name[8];
    slot_name(*slot, name);
    long way = order->action == GATE_IN ? 1 : 2;
    struct text booking = order->booking.at ? order->booking : (struct text){ "", 0 };
    run(office, OPEN_VISIT, "ittitiiitti", container->visit, order->box, order->size, (long)order->laden, booking, way,
        (long)partner, number, (struct text){ order->moment, 12 }, name_text(name), order->kilos);
    run(office, ADD_PLACE, "tit", order->box, container->visit, name_text(name));
    return NULL;
}

static void leave(struct office *office, const struct order *order, int partner, long number, struct container *container) {
    long way = order->action == GATE_OUT ? 1 : 2;
    unstand(&office->yard, container);
    take_out(&office->yard.boxes, container->box, 11);
    run(office, CLOSE_VISIT, "iiiit", container->visit, way, (long)partner, number, (struct text){ order->moment, 12 });
    run(office, DELETE_PLACE, "t", order->box);
    free(container);
}

static void move(struct office *office, const struct order *order, struct container *container, long line) {
    bool is_home = memcmp(&container->slot, &order->slot, sizeof order->slot) == 0;
    const char *reason = misfit(&office->yard, container->length, order->slot, container, container->laden && !is_home);
    char name[8];
    if (reason) return refuse(office, order, line, reason, NULL);
    unstand(&office->yard, container);
    container->slot = order->slot;
    stand(&office->yard, container);
    slot_name(order->slot, name);
    run(office, SET_SLOT, "tt", order->box, name_text(name));
    done_in(office, order, line, order->slot);
}

/* The key of a line of a list: vessel, voyage, side, container. */
static size_t line_key(const struct order *order, char key[128]) {
    int side = order->action == LIST_LOAD || order->action == LOAD ? 1 : 2;
    return snprintf(key, 128, "%.*s/%.*s/%d/%.*s", (int)order->vessel.length, order->vessel.at, (int)order->voyage.length,
        order->voyage.at, side, (int)order->box.length, order->box.at);
}

static void list(struct office *office, const struct order *order, long line) {
    char key[128];
    size_t length = line_key(order, key);
    if (find(&office->lines, key, length)) return refuse(office, order, line, "AlreadyListed", NULL);
    put(&office->lines, key, length, (void *)1);
    struct text port = order->action == LIST_LOAD && order->port.at ? order->port : (struct text){ "", 0 };
    run(office, ADD_LINE, "ttitt", order->vessel, order->voyage, order->action == LIST_LOAD ? 1L : 2L, order->box, port);
    answer(office, order, line, "listed", NULL, NULL);
}

void carry_out(struct office *office, const struct order *order, int partner, long number, long line) {
    bool is_entry = order->action == GATE_IN || order->action == DISCHARGE;
    struct container *container = standing(&office->yard, order->box), *above;
    struct slot slot;
    void **state = NULL;
    if (order->action == LIST_LOAD || order->action == LIST_DISCHARGE) return list(office, order, line);
    if (is_entry == !!container) return refuse(office, order, line, is_entry ? "AlreadyIn" : "NotIn", NULL);
    if (order->action == LOAD || order->action == DISCHARGE) {
        char key[128];
        state = find(&office->lines, key, line_key(order, key));
        if (!state) return refuse(office, order, line, "NotListed", NULL);
        if (*state != (void *)1) return refuse(office, order, line, "ListLineDone", NULL);
    }
    if (is_entry) {
        const char *reason = enter(office, order, partner, number, &slot);
        if (reason) return refuse(office, order, line, reason, NULL);
        done_in(office, order, line, slot);
    } else {
        if ((above = blocker(&office->yard, container))) return refuse(office, order, line, "Buried", above);
        if (order->action == MOVE) return move(office, order, container, line);
        leave(office, order, partner, number, container);
        answer(office, order, line, "gone", NULL, NULL);
    }
    if (!state) return;
    *state = (void *)2;
    run(office, SET_DONE, "ttit", order->vessel, order->voyage, order->action == LOAD ? 1L : 2L, order->box);
}
