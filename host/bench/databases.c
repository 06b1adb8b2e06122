/* The room's items in LMDB and in SQLite: see databases.h. */
#define _GNU_SOURCE
#include "databases.h"
#include "room.h"

#include <lmdb.h>
#include <string.h>

enum { PATH_LENGTH = 4096, SQLITE_PATIENCE = 10000 /* milliseconds */ };

/* LMDB. */

static MDB_env *env;
static MDB_dbi items_by_number;

static void lmdb_put(MDB_txn *txn, uint32_t item, uint32_t project) {
  uint32_t record[2] = {project, size_of(item)};
  MDB_val key = {sizeof item, &item}, data = {sizeof record, record};
  check(mdb_put(txn, items_by_number, &key, &data, 0) == 0, "LMDB put");
}

void lmdb_open(const char *folder, int durable, const uint32_t *project) {
  char path[PATH_LENGTH];
  MDB_txn *txn;
  snprintf(path, sizeof path, "%s/room.lmdb", folder);
  remove(path);
  check(mdb_env_create(&env) == 0 && mdb_env_set_mapsize(env, (size_t)1 << 30) == 0, "LMDB");
  check(mdb_env_open(env, path, MDB_NOSUBDIR | (durable ? 0 : MDB_NOSYNC | MDB_WRITEMAP), 0600) == 0, "LMDB open");
  check(mdb_txn_begin(env, NULL, 0, &txn) == 0 && mdb_dbi_open(txn, NULL, MDB_INTEGERKEY | MDB_CREATE, &items_by_number) == 0, "LMDB table");
  for (uint32_t i = 0; i < ITEMS; i++) lmdb_put(txn, i, project[i]);
  check(mdb_txn_commit(txn) == 0, "LMDB commit");
}

void lmdb_relink(uint32_t item, uint32_t from, uint32_t to) {
  MDB_txn *txn;
  MDB_val key = {sizeof item, &item}, data;
  check(mdb_txn_begin(env, NULL, 0, &txn) == 0 && mdb_get(txn, items_by_number, &key, &data) == 0, "LMDB get");
  check(*(uint32_t *)data.mv_data == from, "LMDB: another project");
  lmdb_put(txn, item, to);
  check(mdb_txn_commit(txn) == 0, "LMDB commit");
}

void lmdb_report(uint64_t *sums, void (*between)(void)) {
  MDB_txn *txn;
  MDB_cursor *cursor;
  MDB_val key, data;
  check(mdb_txn_begin(env, NULL, MDB_RDONLY, &txn) == 0, "LMDB read");
  check(mdb_cursor_open(txn, items_by_number, &cursor) == 0, "LMDB cursor");
  while (mdb_cursor_get(cursor, &key, &data, MDB_NEXT) == 0) {
    uint32_t record[2];
    memcpy(record, data.mv_data, sizeof record);
    sums[record[0]] += record[1];
    if (between) between();
  }
  mdb_cursor_close(cursor);
  mdb_txn_abort(txn);
}

/* SQLite in WAL mode. */

static void sql(sqlite3 *database, const char *text) { check(sqlite3_exec(database, text, NULL, NULL, NULL) == SQLITE_OK, text); }

static sqlite3 *sqlite_opened(const char *folder) {
  char path[PATH_LENGTH];
  sqlite3 *database;
  snprintf(path, sizeof path, "%s/room.sqlite", folder);
  check(sqlite3_open(path, &database) == SQLITE_OK && sqlite3_busy_timeout(database, SQLITE_PATIENCE) == SQLITE_OK, "SQLite open");
  return database;
}

void sqlite_make(const char *folder, const uint32_t *project) {
  static const char *const tail[3] = {"", "-wal", "-shm"};
  char path[PATH_LENGTH];
  for (int i = 0; i < 3; i++) snprintf(path, sizeof path, "%s/room.sqlite%s", folder, tail[i]), remove(path);
  sqlite3 *database = sqlite_opened(folder);
  sql(database, "PRAGMA journal_mode=WAL");
  sql(database, "CREATE TABLE item(number INTEGER PRIMARY KEY, project INTEGER, size INTEGER)");
  sql(database, "BEGIN");
  for (uint32_t i = 0; i < ITEMS; i++) {
    char text[128];
    snprintf(text, sizeof text, "INSERT INTO item VALUES(%u,%u,%u)", i, project[i], size_of(i));
    sql(database, text);
  }
  sql(database, "COMMIT");
  check(sqlite3_close(database) == SQLITE_OK, "SQLite close");
}

struct connection sqlite_connect(const char *folder, int durable) {
  struct connection made = {sqlite_opened(folder), NULL, NULL};
  sqlite3 *database = made.database;
  sql(database, durable ? "PRAGMA synchronous=NORMAL" : "PRAGMA synchronous=OFF");
  check(sqlite3_prepare_v2(database, "SELECT project, sum(size) FROM item GROUP BY project", -1, &made.report, NULL) == SQLITE_OK, "SQLite report");
  check(sqlite3_prepare_v2(database, "UPDATE item SET project=?1 WHERE number=?2 AND project=?3", -1, &made.update, NULL) == SQLITE_OK, "SQLite update");
  return made;
}

void sqlite_relink(struct connection *writer, uint32_t item, uint32_t from, uint32_t to) {
  sqlite3_bind_int64(writer->update, 1, to);
  sqlite3_bind_int64(writer->update, 2, item);
  sqlite3_bind_int64(writer->update, 3, from);
  check(sqlite3_step(writer->update) == SQLITE_DONE && sqlite3_changes(writer->database) == 1, "SQLite update");
  sqlite3_reset(writer->update);
}

void sqlite_report(struct connection *reader, uint64_t *sums, void (*between)(void)) {
  int said;
  while ((said = sqlite3_step(reader->report)) == SQLITE_ROW) {
    sums[sqlite3_column_int64(reader->report, 0)] = (uint64_t)sqlite3_column_int64(reader->report, 1);
    if (between) between();
  }
  check(said == SQLITE_DONE, "SQLite report");
  sqlite3_reset(reader->report);
}
