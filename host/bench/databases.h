/* The room's items kept by LMDB and by SQLite, each with its own locks. What is not as it must be ends the program. */
#ifndef GORAVESHA_DATABASES_H
#define GORAVESHA_DATABASES_H

#include <sqlite3.h>
#include <stdint.h>

/*
 * LMDB, one table: item number to project and size. lmdb_open makes it anew in `folder`, item i charged to project[i]; `durable` leaves synchronising on.
 * A relink is one write transaction. A report is one read transaction; `between`, where there is one, is called after each record.
 */
void lmdb_open(const char *folder, int durable, const uint32_t *project);
void lmdb_relink(uint32_t item, uint32_t from, uint32_t to);
void lmdb_report(uint64_t *sums, void (*between)(void));

/* SQLite in WAL mode: a connection belongs to one thread, and waits for others up to ten seconds. */
struct connection {
  sqlite3 *database;
  sqlite3_stmt *report, *update;
};

/* sqlite_make makes the table anew in `folder`; sqlite_connect connects to it. `durable` is synchronous=NORMAL, else OFF. */
void sqlite_make(const char *folder, const uint32_t *project);
struct connection sqlite_connect(const char *folder, int durable);

/* A relink is one transaction. A report is one query; `between`, where there is one, is called after each row. */
void sqlite_relink(struct connection *writer, uint32_t item, uint32_t from, uint32_t to);
void sqlite_report(struct connection *reader, uint64_t *sums, void (*between)(void));

#endif
