/*
 * Examines heralinda_search_records: cases on standard input, answers on standard output. Both are those of kind 2, the
 * search, in docs/EXAM.md, so that any program can compare the two; the words of a case are whole rows, which are lent
 * as tasks. The run ends with the input.
 */
#include "examine.h"

#include "heralinda.h"

enum { SEARCH = 2 };

/* Reads words as tasks that end at `end`, and answers where they start. */
static heralinda_task *read_tasks(uint8_t *end, size_t *task_count) {
    uint32_t words;
    if (!read_number(2, &words) || words % 3 != 0 || 4 * words > MOST) {
        return NULL;
    }
    *task_count = words / 3;
    heralinda_task *tasks = (heralinda_task *)(end - 4 * words);
    for (size_t i = 0; i < *task_count; i++) {
        if (!read_number(4, &tasks[i].c) || !read_number(4, &tasks[i].d) || !read_number(4, &tasks[i].t)) {
            return NULL;
        }
    }
    return tasks;
}

static void write_found(heralinda_found found) {
    write_number(found.number);
    write_number(found.row);
    write_number(found.group.low);
    write_number(found.group.high);
    write_number(found.tests);
}

int main(void) {
    uint8_t *tasks_end = fence();
    uint8_t *out_end = fence();
    if (tasks_end == NULL || out_end == NULL) {
        return 2;
    }
    uint32_t kind;
    while (read_number(1, &kind)) {
        size_t task_count;
        size_t out_length;
        uint32_t m;
        heralinda_task *tasks = kind == SEARCH ? read_tasks(tasks_end, &task_count) : NULL;
        uint8_t *out = tasks != NULL && read_number(4, &m) ? read_list(out_end, &out_length) : NULL;
        if (out == NULL) {
            return 1;
        }
        write_found(heralinda_search_records(tasks, task_count, m, out, out_length));
        fwrite(out, 1, out_length, stdout);
    }
    return 0;
}
