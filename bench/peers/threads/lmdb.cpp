// Threads over one handle of LMDB behind one mutex, so all that stands between two flushes is one transaction.
#include "../lmdb_table.h"
#include "crew.h"

int main(int count, char **words) { return crew::run<crew::Locked<rows::Rows<lmdb::Table>>>(count, words); }
