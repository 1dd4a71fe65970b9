// Times the queries of queries.txt over the windows of windows.txt in three other engines: SQLite's full-text search (FTS5), a plain SQLite table with
// an index, and Xapian, each in memory. The plain table reckons this engine's own scores, which are held to those of hits.txt.
#include <sqlite3.h>
#include <xapian.h>

#include <cmath>
#include <cstdio>
#include <cstdlib>
#include <ctime>
#include <fstream>
#include <map>
#include <sstream>
#include <string>
#include <utility>
#include <vector>

using Counts = std::vector<std::pair<std::string, int>>;
using Hits = std::vector<std::pair<long, long>>;

static const int places = 10;
static std::string folder;
static std::vector<Counts> windows;
static std::vector<std::vector<std::string>> queries;

// Microseconds of the processor that this thread has had.
static double now() {
    timespec t;
    clock_gettime(CLOCK_THREAD_CPUTIME_ID, &t);
    return t.tv_sec * 1e6 + t.tv_nsec / 1e3;
}

static void fail(const std::string &what) {
    std::fprintf(stderr, "peers: %s\n", what.c_str());
    std::exit(1);
}

static void read_text() {
    std::string line;
    std::ifstream w(folder + "/windows.txt"), q(folder + "/queries.txt");
    while (std::getline(w, line)) {
        std::istringstream words(line);
        Counts counts;
        std::string name;
        int count;
        while (words >> name >> count) counts.emplace_back(name, count);
        windows.push_back(counts);
    }
    while (std::getline(q, line)) {
        std::istringstream words(line);
        std::vector<std::string> names;
        std::string name;
        while (words >> name) names.push_back(name);
        queries.push_back(names);
    }
    if (windows.empty() || queries.empty()) fail("no windows or no queries");
}

// The least of seven rounds over all queries, in a line of the table.
template <class Query> static void report(const char *name, double built, Query query) {
    double least = INFINITY;
    for (int round = 0; round < 7; round++) {
        double began = now();
        for (const auto &names : queries) query(names);
        least = std::min(least, now() - began);
    }
    std::printf("%24s %16.1f %16.0f\n", name, least / queries.size(), built / 1e3);
}

static void run(sqlite3 *db, const std::string &sql) {
    char *message = nullptr;
    if (sqlite3_exec(db, sql.c_str(), nullptr, nullptr, &message) != SQLITE_OK) fail(sql + ": " + message);
}

static sqlite3_stmt *prepare(sqlite3 *db, const std::string &sql) {
    sqlite3_stmt *s = nullptr;
    if (sqlite3_prepare_v2(db, sql.c_str(), -1, &s, nullptr) != SQLITE_OK) fail(sql + ": " + sqlite3_errmsg(db));
    return s;
}

static sqlite3 *memory() {
    sqlite3 *db = nullptr;
    if (sqlite3_open(":memory:", &db) != SQLITE_OK) fail("no database in memory");
    return db;
}

static Hits rows(sqlite3_stmt *s) {
    Hits hits;
    while (sqlite3_step(s) == SQLITE_ROW) hits.emplace_back(sqlite3_column_int64(s, 0), sqlite3_column_int64(s, 1));
    sqlite3_reset(s);
    return hits;
}

static void fts5() {
    double began = now();
    sqlite3 *db = memory();
    run(db, "CREATE VIRTUAL TABLE windows USING fts5(events, detail = 'none')");
    run(db, "BEGIN");
    sqlite3_stmt *add = prepare(db, "INSERT INTO windows(rowid, events) VALUES (?1, ?2)");
    for (size_t i = 0; i < windows.size(); i++) {
        std::string text;
        for (const auto &c : windows[i])
            for (int k = 0; k < c.second; k++) text += c.first + " ";
        sqlite3_bind_int64(add, 1, i + 1);
        sqlite3_bind_text(add, 2, text.c_str(), -1, SQLITE_TRANSIENT);
        if (sqlite3_step(add) != SQLITE_DONE) fail("FTS5 takes no window");
        sqlite3_reset(add);
    }
    run(db, "COMMIT");
    run(db, "INSERT INTO windows(windows) VALUES ('optimize')");
    double built = now() - began;
    sqlite3_stmt *find = prepare(db, "SELECT rowid, 0 FROM windows WHERE windows MATCH ?1 ORDER BY rank LIMIT 10");
    report("SQLite FTS5", built, [&](const std::vector<std::string> &names) {
        std::string match;
        for (const auto &n : names) match += (match.empty() ? "" : " OR ") + n;
        sqlite3_bind_text(find, 1, match.c_str(), -1, SQLITE_TRANSIENT);
        if (rows(find).empty()) fail("FTS5 finds nothing");
    });
}

using Wide = unsigned __int128;

// The place of the highest set bit.
static long highest(Wide n) {
    unsigned long high = n >> 64, low = n;
    return high != 0 ? 127 - __builtin_clzl(high) : 63 - __builtin_clzl(low);
}

// The largest a with 2^a <= n^16, for n from 1 to 65,535: the highest bit of the square of n^8, which is taken in halves.
static long sixteenths(unsigned long n) {
    Wide fourth = (Wide)(n * n) * (n * n), eighth = fourth * fourth;
    Wide high = eighth >> 64, low = (unsigned long)eighth, cross = high * low;
    Wide bottom = low * low + (cross << 65), carry = bottom < low * low, top = high * high + (cross >> 63) + carry;
    return top != 0 ? 128 + highest(top) : highest(bottom);
}

// The weight of a count, for SQL.
static void tf(sqlite3_context *context, int, sqlite3_value **values) {
    sqlite3_result_int64(context, sixteenths(sqlite3_value_int64(values[0]) + 1));
}

// The weight of a name that f of n windows have: a difference of logarithms, each rounded down.
static long idf(unsigned long n, unsigned long f) {
    return f == 0 || f > n ? 0 : sixteenths(n) - sixteenths(f);
}

static void table() {
    double began = now();
    sqlite3 *db = memory();
    sqlite3_create_function(db, "tf", 1, SQLITE_UTF8 | SQLITE_DETERMINISTIC, nullptr, tf, nullptr, nullptr);
    run(db, "CREATE TABLE postings(name TEXT, number INTEGER, count INTEGER, PRIMARY KEY (name, number)) WITHOUT ROWID");
    run(db, "BEGIN");
    sqlite3_stmt *add = prepare(db, "INSERT INTO postings VALUES (?1, ?2, ?3)");
    for (size_t i = 0; i < windows.size(); i++)
        for (const auto &c : windows[i]) {
            sqlite3_bind_text(add, 1, c.first.c_str(), -1, SQLITE_TRANSIENT);
            sqlite3_bind_int64(add, 2, i + 1);
            sqlite3_bind_int64(add, 3, c.second);
            if (sqlite3_step(add) != SQLITE_DONE) fail("the table takes no posting");
            sqlite3_reset(add);
        }
    run(db, "COMMIT");
    run(db, "ANALYZE");
    double built = now() - began;
    sqlite3_stmt *frequency = prepare(db, "SELECT count(*), 0 FROM postings WHERE name = ?1");
    std::vector<sqlite3_stmt *> finds;
    for (int n = 1; n <= 5; n++) {
        std::string all;
        for (int i = 0; i < n; i++) {
            std::string a = std::to_string(2 * i + 1), b = std::to_string(2 * i + 2);
            all += (i ? " UNION ALL " : "") + ("SELECT number, tf(count) * ?" + b + " AS part FROM postings WHERE name = ?" + a);
        }
        finds.push_back(prepare(db, "SELECT number, sum(part) AS score FROM (" + all + ") GROUP BY number ORDER BY score DESC, number DESC LIMIT 10"));
    }
    auto query = [&](const std::vector<std::string> &names) {
        sqlite3_stmt *find = finds[names.size() - 1];
        for (size_t i = 0; i < names.size(); i++) {
            sqlite3_bind_text(frequency, 1, names[i].c_str(), -1, SQLITE_STATIC);
            long f = rows(frequency)[0].first;
            sqlite3_bind_text(find, 2 * i + 1, names[i].c_str(), -1, SQLITE_STATIC);
            sqlite3_bind_int64(find, 2 * i + 2, idf(windows.size(), f));
        }
        return rows(find);
    };
    std::ifstream told(folder + "/hits.txt");
    std::string line;
    for (const auto &names : queries) {
        if (!std::getline(told, line)) fail("hits.txt is too short");
        std::istringstream words(line);
        Hits expected;
        long window, score;
        while (words >> window >> score) expected.emplace_back(window, score);
        if (query(names) != expected) fail("the table's scores are others");
    }
    report("SQLite table, index", built, query);
}

static void xapian() {
    double began = now();
    Xapian::WritableDatabase db("", Xapian::DB_BACKEND_INMEMORY);
    for (size_t i = 0; i < windows.size(); i++) {
        Xapian::Document document;
        for (const auto &c : windows[i]) document.add_term(c.first, c.second);
        db.add_document(document);
    }
    double built = now() - began;
    report("Xapian", built, [&](const std::vector<std::string> &names) {
        Xapian::Enquire enquire(db);
        enquire.set_weighting_scheme(Xapian::TfIdfWeight("ntn"));
        enquire.set_query(Xapian::Query(Xapian::Query::OP_OR, names.begin(), names.end()));
        if (enquire.get_mset(0, places).empty()) fail("Xapian finds nothing");
    });
}

int main(int count, char **words) {
    if (count != 2) fail("usage: peers FOLDER");
    folder = words[1];
    read_text();
    fts5();
    table();
    xapian();
    return 0;
}
