/* Reads a file by libyaml: its events, or with -d its documents as trees. usage: libyaml [-d] FILE */
#include <stdio.h>
#include <string.h>
#include <yaml.h>

static int events(yaml_parser_t *parser) {
    for (;;) {
        yaml_event_t event;
        if (!yaml_parser_parse(parser, &event)) return 1;
        int last = event.type == YAML_STREAM_END_EVENT;
        yaml_event_delete(&event);
        if (last) return 0;
    }
}

static int documents(yaml_parser_t *parser) {
    for (;;) {
        yaml_document_t document;
        if (!yaml_parser_load(parser, &document)) return 1;
        int last = yaml_document_get_root_node(&document) == NULL;
        yaml_document_delete(&document);
        if (last) return 0;
    }
}

int main(int count, char **words) {
    int whole = count == 3 && strcmp(words[1], "-d") == 0;
    FILE *file = count == 2 + whole ? fopen(words[1 + whole], "rb") : NULL;
    yaml_parser_t parser;
    if (file == NULL || !yaml_parser_initialize(&parser)) return 1;
    yaml_parser_set_input_file(&parser, file);
    int failed = whole ? documents(&parser) : events(&parser);
    yaml_parser_delete(&parser);
    fclose(file);
    return failed;
}
