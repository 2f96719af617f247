// The script over SQLite: `flush` and the end of a batch commit.
#include "sqlite_tables.h"

int main() { return script::run<sqlite::Sqlite>(); }
