// Threads over a plain map behind one mutex.
#include "../plain_map.h"
#include "crew.h"

int main(int count, char **words) { return crew::run<crew::Locked<plain::PlainMap>>(count, words); }
