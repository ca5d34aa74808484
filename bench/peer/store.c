/* The store: its statements, and what is read of it as it is opened. */
#include <sqlite3.h>
#include <stdarg.h>
#include <stdio.h>
#include <stdlib.h>
#include <string.h>
#include "peer.h"

static const char *const texts[STATEMENTS] = {
    [BEGIN] = "BEGIN",
    [COMMIT] = "COMMIT",
    [KEPT] = "SELECT body, reply FROM interchange WHERE partner = ?1 AND number = ?2",
    [KEEP] = "INSERT INTO interchange (partner, number, body, reply) VALUES (?1, ?2, ?3, ?4)",
    [SET_REPLY] = "UPDATE interchange SET reply = ?3 WHERE partner = ?1 AND number = ?2",
    [SET_NEXT] = "UPDATE partner SET next = ?2 WHERE id = ?1",
    [OPEN_VISIT] = "INSERT INTO visit VALUES (?1, ?2, ?3, ?4, ?5, ?6, ?7, ?8, ?9, ?10, 0, 0, 0, '', ?11)",
    [CLOSE_VISIT] = "UPDATE visit SET out_by = ?2, out_partner = ?3, out_number = ?4, out_at = ?5 WHERE visit = ?1",
    [ADD_PLACE] = "INSERT INTO place (box, visit, slot) VALUES (?1, ?2, ?3)",
    [SET_SLOT] = "UPDATE place SET slot = ?2 WHERE box = ?1",
    [DELETE_PLACE] = "DELETE FROM place WHERE box = ?1",
    [ADD_LINE] = "INSERT INTO listed (vessel, voyage, side, box, port, done) VALUES (?1, ?2, ?3, ?4, ?5, 0)",
    [SET_DONE] = "UPDATE listed SET done = 1 WHERE vessel = ?1 AND voyage = ?2 AND side = ?3 AND box = ?4",
};

/* Binds what follows by kind, i for a long and t and b for a text and a blob, and runs the statement. */
void run(struct office *office, enum statement which, const char *kinds, ...) {
    if (!office->is_stored) return;
    sqlite3_stmt *statement = office->statements[which];
    va_list values;
    va_start(values, kinds);
    for (int i = 0; kinds[i]; i++) {
        if (kinds[i] == 'i') {
            sqlite3_bind_int64(statement, i + 1, va_arg(values, long));
            continue;
        }
        struct text text = va_arg(values, struct text);
        if (kinds[i] == 't') sqlite3_bind_text(statement, i + 1, text.at, text.length, SQLITE_STATIC);
        else sqlite3_bind_blob(statement, i + 1, text.at, text.length, SQLITE_STATIC);
    }
    va_end(values);
    if (sqlite3_step(statement) != SQLITE_DONE || sqlite3_reset(statement) != SQLITE_OK) die(sqlite3_errmsg(office->store));
}

static struct text column(sqlite3_stmt *statement, int place) {
    return (struct text){ sqlite3_column_blob(statement, place), sqlite3_column_bytes(statement, place) };
}

/* What is kept under a number, until `done_with_kept`. */
bool kept(struct office *office, int partner, long number, struct text *body, struct text *reply) {
    if (!office->is_stored) return false;
    sqlite3_stmt *statement = office->statements[KEPT];
    sqlite3_bind_int64(statement, 1, partner);
    sqlite3_bind_int64(statement, 2, number);
    if (sqlite3_step(statement) != SQLITE_ROW) return false;
    *body = column(statement, 0);
    *reply = column(statement, 1);
    return true;
}

void done_with_kept(struct office *office) {
    if (office->is_stored) sqlite3_reset(office->statements[KEPT]);
}

/* ---- opening */

/* Hands each row of a query to a reader. */
static void each(struct office *office, const char *query, void (*read)(struct office *, sqlite3_stmt *)) {
    sqlite3_stmt *statement;
    if (sqlite3_prepare_v2(office->store, query, -1, &statement, NULL) != SQLITE_OK) die(sqlite3_errmsg(office->store));
    while (sqlite3_step(statement) == SQLITE_ROW) read(office, statement);
    sqlite3_finalize(statement);
}

static void read_partner(struct office *office, sqlite3_stmt *row) {
    struct partner *partner = calloc(1, sizeof *partner);
    struct text code = column(row, 1);
    memcpy(partner->code, code.at, code.length);
    partner->id = sqlite3_column_int(row, 0);
    partner->kind = sqlite3_column_int(row, 2);
    partner->next = sqlite3_column_int64(row, 3);
    put(&office->partners, code.at, code.length, partner);
}

static void read_setting(struct office *office, sqlite3_stmt *row) {
    static const char *const names[ACTIONS] = {
        "gate-in", "gate-out", "yard-move", "discharge-list", "load-list", "discharge-report", "load-report" };
    const char *value = (const char *)sqlite3_column_text(row, 1);
    struct text name = column(row, 0);
    if (is(name, "terminal")) snprintf(office->terminal, sizeof office->terminal, "%s", value);
    if (is(name, "visits")) office->most_visits = atol(value);
    for (int i = 0; i < ACTIONS; i++) if (is(name, names[i])) snprintf(office->codes[i], 4, "%s", value);
}

static void read_block(struct office *office, sqlite3_stmt *row) {
    struct text letter = column(row, 0);
    office->yard.blocks[letter.at[0] - 'A'] =
        (struct block){ sqlite3_column_int(row, 1), sqlite3_column_int(row, 2), sqlite3_column_int(row, 3) };
}

static void read_count(struct office *office, sqlite3_stmt *row) { office->visits = sqlite3_column_int64(row, 0); }

static void read_place(struct office *office, sqlite3_stmt *row) {
    struct container *container = calloc(1, sizeof *container);
    struct text box = column(row, 0), slot = column(row, 2), size = column(row, 3);
    memcpy(container->box, box.at, 11);
    memcpy(container->size, size.at, 4);
    read_slot(slot, &container->slot);
    container->length = container->size[0] == '2' ? 20 : 40;
    container->laden = sqlite3_column_int(row, 4);
    container->visit = sqlite3_column_int64(row, 1);
    stand(&office->yard, container);
    put(&office->yard.boxes, container->box, 11, container);
}

static void read_line(struct office *office, sqlite3_stmt *row) {
    struct text key = column(row, 0);
    put(&office->lines, key.at, key.length, (void *)(sqlite3_column_int64(row, 1) + 1));
}

static void pass_over(struct office *office, sqlite3_stmt *row) {
    for (int i = 0; i < sqlite3_column_count(row); i++) office->reply.room += sqlite3_column_bytes(row, i) < 0;
}

/* Every row that the office reads as it opens a store, in its orders. */
void read_all_rows(struct office *office) {
    each(office, "SELECT partner, number, reply FROM interchange ORDER BY partner, number", pass_over);
    each(office, "SELECT * FROM visit ORDER BY visit", pass_over);
}

/* Opens a store and reads what deliveries need. Where it is not stored, its rows stay as they are. */
void open_store(struct office *office, const char *path, bool is_stored) {
    sqlite3 *store;
    if (sqlite3_open_v2(path, &store, SQLITE_OPEN_READWRITE, NULL) != SQLITE_OK) die("store");
    office->store = store;
    office->is_stored = is_stored;
    sqlite3_exec(store, "PRAGMA journal_mode = WAL; PRAGMA synchronous = FULL", NULL, NULL, NULL);
    for (int i = 0; i < STATEMENTS; i++)
        if (sqlite3_prepare_v3(store, texts[i], -1, SQLITE_PREPARE_PERSISTENT, (sqlite3_stmt **)&office->statements[i], NULL) != SQLITE_OK)
            die(sqlite3_errmsg(store));
    each(office, "SELECT name, value FROM setting", read_setting);
    each(office, "SELECT letter, bays, lanes, tiers FROM block", read_block);
    each(office, "SELECT id, code, kind, next FROM partner", read_partner);
    each(office, "SELECT ifnull(max(visit), 0) FROM visit", read_count);
    each(office, "SELECT place.box, place.visit, slot, size, laden FROM place JOIN visit ON visit.visit = place.visit", read_place);
    each(office, "SELECT vessel || '/' || voyage || '/' || side || '/' || box, done FROM listed", read_line);
}
