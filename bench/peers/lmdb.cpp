// The script over LMDB: `flush` and the end of a batch commit.
#include "lmdb_table.h"

int main() { return script::run<rows::Rows<lmdb::Table>>(); }
