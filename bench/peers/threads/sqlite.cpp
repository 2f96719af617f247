// Threads over one connection of SQLite behind one mutex, so all that stands between two flushes is one transaction.
#include "../sqlite_tables.h"
#include "crew.h"

int main(int count, char **words) { return crew::run<crew::Locked<sqlite::Sqlite>>(count, words); }
