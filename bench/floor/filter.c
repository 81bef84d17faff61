/* The floor of `SELECT id, name FROM t WHERE pop > 500000 AND NOT name = 'bern' OR pop IS NULL`.
 *
 *   filter t.csv
 */
#include "floor.h"

int main(int count, char **words) {
    if (count != 2) return 2;
    Text text = behind_header(mapped(words[1]));
    size_t room = (size_t)(text.end - text.at) / 4 + 1, found = 0;
    Pair *pairs = malloc(room * sizeof(Pair));
    Text *names = malloc(room * sizeof(Text));
    uint32_t greatest = 0;
    while (text.at < text.end) {
        uint32_t key = (uint32_t)number(&text);
        int is_null = *++text.at == ',';
        int32_t pop = number(&text);
        const char *name = ++text.at;
        text.at = memchr(name, '\n', (size_t)(text.end - name));
        size_t length = (size_t)(text.at++ - name);
        if (is_null || (pop > 500000 && !(length == 4 && memcmp(name, "bern", 4) == 0))) {
            names[found] = (Text){name, text.at};
            pairs[found] = (Pair){key, (uint32_t)found};
            greatest |= key;
            found++;
        }
    }
    pairs = sorted(pairs, found, greatest);
    put("id,name\n", 8);
    for (size_t k = 0; k < found; k++) {
        Text name = names[pairs[k].place];
        put_number((int32_t)pairs[k].key, ',');
        put(name.at, (size_t)(name.end - name.at));
    }
    flush();
    return 0;
}
