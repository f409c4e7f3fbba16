// Modest on its own tree, that of MyHTML (libmodest-dev; cc -lmodest -lm). Arguments and what it prints are those of measured.py.
#include <modest/finder/finder.h>
#include <mycss/mycss.h>
#include <mycss/selectors/init.h>
#include <mycss/selectors/list.h>
#include <myhtml/myhtml.h>
#include <myhtml/tree.h>
#include <stdio.h>
#include <stdlib.h>
#include <string.h>
#include <time.h>

static char *read_file(const char *path, size_t *length) {
    FILE *file = fopen(path, "rb");
    if (!file) exit(1);
    fseek(file, 0, SEEK_END);
    *length = (size_t)ftell(file);
    rewind(file);
    char *text = malloc(*length + 1);
    if (!text || fread(text, 1, *length, file) != *length) exit(1);
    text[*length] = 0;
    fclose(file);
    return text;
}

static double seconds(void) {
    struct timespec now;
    clock_gettime(CLOCK_MONOTONIC, &now);
    return (double)now.tv_sec + (double)now.tv_nsec / 1e9;
}

static myhtml_tree_t *parse(myhtml_t *html, const char *page, size_t length) {
    myhtml_tree_t *tree = myhtml_tree_create();
    if (myhtml_tree_init(tree, html) || myhtml_parse(tree, MyENCODING_UTF_8, page, length)) exit(1);
    return tree;
}

static size_t search(modest_finder_t *finder, myhtml_tree_t *tree, mycss_selectors_list_t **lists, size_t count) {
    size_t found = 0;
    for (size_t number = 0; number < count; number += 1) {
        myhtml_collection_t *collection = NULL;
        modest_finder_by_selectors_list(finder, myhtml_tree_get_node_html(tree), lists[number], &collection);
        if (!collection) continue;
        found += collection->length;
        myhtml_collection_destroy(collection);
    }
    return found;
}

int main(int argc, char **argv) {
    if (argc < 4) return 1;
    size_t length, size, count = 0, found = 0;
    char *page = read_file(argv[1], &length), *texts = read_file(argv[2], &size);
    int runs = atoi(argv[3]);
    double times[3] = {1e9, 1e9, 1e9};
    myhtml_t *html = myhtml_create();
    if (myhtml_init(html, MyHTML_OPTIONS_PARSE_MODE_SINGLE, 1, 0)) return 1;
    myhtml_tree_t *tree = NULL;
    for (int run = 0; run < runs; run += 1) {
        if (tree) myhtml_tree_destroy(tree);
        double begin = seconds();
        tree = parse(html, page, length);
        if (seconds() - begin < times[0]) times[0] = seconds() - begin;
    }
    mycss_t *css = mycss_create();
    mycss_entry_t *entry = mycss_entry_create();
    if (mycss_init(css) || mycss_entry_init(css, entry)) return 1;
    modest_finder_t *finder = modest_finder_create_simple();
    mycss_selectors_list_t **lists = calloc(size + 1, sizeof *lists);
    double begin = seconds();
    for (char *text = strtok(texts, "\n"); text; text = strtok(NULL, "\n")) {
        mystatus_t status;
        lists[count] = mycss_selectors_parse(mycss_entry_selectors(entry), MyENCODING_UTF_8, text, strlen(text), &status);
        if (!lists[count] || lists[count]->flags & MyCSS_SELECTORS_FLAGS_SELECTOR_BAD) return 1;
        count += 1;
    }
    found = search(finder, tree, lists, count);
    times[1] = seconds() - begin;
    for (int run = 0; run < runs; run += 1) {
        begin = seconds();
        search(finder, tree, lists, count);
        if (seconds() - begin < times[2]) times[2] = seconds() - begin;
    }
    printf("{\"parse\": %.9f, \"first\": %.9f, \"later\": %.9f, \"found\": %zu}\n", times[0], times[1], times[2], found);
    return 0;
}
