/* One delivery: judged, kept, taken with those that become next by it, in one transaction, and answered. */
#include <stdlib.h>
#include <string.h>
#include "peer.h"

/* The acknowledgement of the interchange that was read, with all its messages. */
void write_contrl(struct office *office) {
    const struct interchange *all = &office->interchange;
    struct buffer *to = &office->contrl;
    long messages = 0;
    to->length = 0;
    append_word(to, "UNB+UNOA:3+");
    spell_element(to, all, 0, 3, 3);
    append(to, "+", 1);
    spell_element(to, all, 0, 2, 3);
    append(to, "+", 1);
    spell_element(to, all, 0, 4, 2);
    append(to, "+", 1);
    spell_element(to, all, 0, 5, 1);
    append_word(to, "'UNH+1+CONTRL:D:3:UN'UCI+");
    spell_element(to, all, 0, 5, 1);
    append(to, "+", 1);
    spell_element(to, all, 0, 2, 3);
    append(to, "+", 1);
    spell_element(to, all, 0, 3, 3);
    append_word(to, "+7'");
    for (size_t at = 1; at < all->count; at++) {
        if (!is(all->segments[at].tag, "UNH")) continue;
        append_word(to, "UCM+");
        spell_element(to, all, at, 1, 1);
        append(to, "+", 1);
        spell_element(to, all, at, 2, 5);
        append_word(to, "+7'");
        messages++;
    }
    append_word(to, "UNT+");
    append_number(to, messages + 3);
    append_word(to, "+1'UNZ+1+");
    spell_element(to, all, 0, 5, 1);
    append(to, "'", 1);
}

/* Reads an interchange, whose it is and what it orders, or the name of a fault. */
static const char *admit(struct office *office, struct text text, struct partner **partner) {
    const struct interchange *all = &office->interchange;
    const char *fault = read_segments(&office->interchange, text);
    if (fault) return fault;
    if (all->count < 2 || !is(all->segments[0].tag, "UNB") || !is(all->segments[all->count - 1].tag, "UNZ")) return "NoEnvelope";
    struct text number = value(all, 0, 5, 1), ending = value(all, all->count - 1, 2, 1), sender = value(all, 0, 2, 1);
    if (!are_digits(number, 1, 14) || number_of(number) < 1 || number_of(number) > 999999999) return "Number";
    if (value(all, 0, 4, 1).length != 6 || value(all, 0, 4, 2).length != 4) return "Moment";
    if (!is_same(ending, number)) return "ControlReference";
    void **found = find(&office->partners, sender.at, sender.length);
    if (!found) return "UnknownSender";
    if (!is(value(all, 0, 3, 1), office->terminal)) return "WrongRecipient";
    *partner = *found;
    return read_orders(office, *partner);
}

/* Carries out the orders that were read, and leaves the reply. */
static void take(struct office *office, int partner, long number) {
    const struct interchange *all = &office->interchange;
    struct buffer *to = &office->reply;
    write_contrl(office);
    to->length = 0;
    append_word(to, "{\"contrl\":\"");
    append_json(to, office->contrl.at, office->contrl.length);
    append_word(to, "\",\"messages\":[");
    for (size_t i = 0, line = 1; i < office->orders.count; i++, line++) {
        const struct order *order = &office->orders.items[i];
        bool is_first = i == 0 || office->orders.items[i - 1].message != order->message;
        bool is_last = i + 1 == office->orders.count || office->orders.items[i + 1].message != order->message;
        if (is_first) {
            append_word(to, i == 0 ? "{\"lines\":[{" : ",{\"lines\":[{");
            line = 1;
        } else append_word(to, ",{");
        carry_out(office, order, partner, number, line);
        if (!is_last) continue;
        struct text reference = value(all, order->message, 1, 1);
        append_word(to, "],\"reference\":\"");
        append_json(to, reference.at, reference.length);
        append_word(to, "\",\"result\":\"accepted\"}");
    }
    append_word(to, "]}");
}

static void answer_head(struct office *office, const char *answer, const struct partner *partner, long number) {
    struct buffer *to = &office->answer;
    append_word(to, "{\"answer\":\"");
    append_word(to, answer);
    if (strcmp(answer, "waiting") == 0) {
        append_word(to, "\",\"next\":");
        append_number(to, partner->next);
    } else append(to, "\"", 1);
    append_word(to, ",\"number\":");
    append_number(to, number);
    append_word(to, ",\"partner\":\"");
    append_word(to, partner->code);
    append(to, "\"", 1);
}

static void answer_reply(struct office *office, const char *answer, const struct partner *partner, long number, struct text reply) {
    answer_head(office, answer, partner, number);
    append_word(&office->answer, ",\"reply\":");
    append_text(&office->answer, reply);
}

/* The answer to a number that is kept already. */
static const char *answer_used(struct office *office, struct partner *partner, long number, struct text text, struct text body, struct text reply) {
    const char *answer = "clash";
    if (is_same(body, text)) answer = reply.length ? "repeat" : "waiting";
    if (strcmp(answer, "repeat") == 0) answer_reply(office, answer, partner, number, reply);
    else answer_head(office, answer, partner, number);
    append(&office->answer, "}", 1);
    done_with_kept(office);
    return answer;
}

/* Takes what waits behind a number, as far as it goes. */
static void take_waiting(struct office *office, struct partner *partner) {
    struct text body, none;
    while (kept(office, partner->id, partner->next, &body, &none)) {
        office->behind.length = 0;
        append_text(&office->behind, body);
        done_with_kept(office);
        struct partner *same;
        if (admit(office, (struct text){ office->behind.at, office->behind.length }, &same)) die("a kept interchange");
        take(office, partner->id, partner->next);
        run(office, SET_REPLY, "iit", (long)partner->id, partner->next, (struct text){ office->reply.at, office->reply.length });
        partner->next++;
    }
    done_with_kept(office);
}

/* Delivers a text and leaves its answer; gives the word of it. */
const char *deliver(struct office *office, struct text delivered) {
    struct text text = trimmed(delivered), body, reply, none = { "", 0 };
    struct partner *partner;
    office->answer.length = 0;
    const char *fault = admit(office, text, &partner);
    if (fault) {
        append_word(&office->answer, "{\"answer\":\"refused\",\"fault\":\"");
        append_word(&office->answer, fault);
        append_word(&office->answer, "\"}");
        return "refused";
    }
    long number = number_of(value(&office->interchange, 0, 5, 1));
    if (number != partner->next && kept(office, partner->id, number, &body, &reply))
        return answer_used(office, partner, number, text, body, reply);
    done_with_kept(office);
    run(office, BEGIN, "");
    if (number > partner->next) {
        run(office, KEEP, "iibt", (long)partner->id, number, text, none);
        answer_head(office, "waiting", partner, number);
        append(&office->answer, "}", 1);
        run(office, COMMIT, "");
        return "waiting";
    }
    take(office, partner->id, number);
    run(office, KEEP, "iibt", (long)partner->id, number, text, (struct text){ office->reply.at, office->reply.length });
    answer_reply(office, "taken", partner, number, (struct text){ office->reply.at, office->reply.length });
    append(&office->answer, "}", 1);
    partner->next++;
    take_waiting(office, partner);
    run(office, SET_NEXT, "ii", (long)partner->id, partner->next);
    run(office, COMMIT, "");
    return "taken";
}
