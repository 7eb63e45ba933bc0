/* Reads a text of YAML, and writes what it holds anew. */
#include <stdio.h>
#include <string.h>
#include <yaml.h>

static const char *text =
    "%YAML 1.1\n---\nname: a plain scalar\nlist: [one, 'two', \"three\\n\", &here four]\nagain: *here\nblock: |\n  first line\n  second line\n"
    "folded: >-\n  some words\n  more words\nnested:\n  - {a: 1, b: 2}\n  - - x\n    - y\n  - !tag value\n? complex key\n: complex value\n"
    "long: this is a scalar that is so long that the writer has to break it into two lines or more, as it is set to do by its width\n...\n";

int main(void)
{
    yaml_parser_t parser;
    yaml_emitter_t emitter;
    yaml_document_t document;
    unsigned char made[4000];
    size_t size = 0;

    yaml_parser_initialize(&parser);
    yaml_parser_set_input_string(&parser, (const unsigned char *) text, strlen(text));
    yaml_emitter_initialize(&emitter);
    yaml_emitter_set_output_string(&emitter, made, sizeof(made) - 1, &size);
    yaml_emitter_set_width(&emitter, 60);
    if (!yaml_parser_load(&parser, &document) || !yaml_emitter_dump(&emitter, &document) || !yaml_emitter_flush(&emitter))
        return 1;
    made[size] = 0;
    printf("%d bytes\n%s", (int) size, (const char *) made);
    yaml_emitter_delete(&emitter);
    yaml_parser_delete(&parser);
    return 0;
}
