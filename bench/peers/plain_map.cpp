// The script over a plain map: this is what the script costs where nothing is ever to be durable.
#include "plain_map.h"

int main() { return script::run<plain::PlainMap>(); }
