/* Reads a text of JSON, changes it, and tells what it holds. */
#include <stdio.h>
#include <stdlib.h>
#include <string.h>
#include <jansson.h>

static const char *text = "{\"b\": [1, 22, -333, true, null, 6, 7, 8, 9, 10, 11], \"a\": {\"x\": \"y\", \"long\": \"a string that is longer than sixteen bytes\"}, \"c\": \"\\u00e4\"}";

static void tell(json_t *value)
{
    const char *key;
    json_t *inner;
    size_t i;

    if (json_is_object(value)) {
        json_object_foreach(value, key, inner) {
            printf("%s:", key);
            tell(inner);
        }
    } else if (json_is_array(value)) {
        for (i = 0; i < json_array_size(value); i++)
            tell(json_array_get(value, i));
    } else if (json_is_string(value)) {
        printf(" '%s'", json_string_value(value));
    } else if (json_is_integer(value)) {
        printf(" %d", (int) json_integer_value(value));
    } else {
        printf(" (%d)", (int) json_typeof(value));
    }
}

int main(void)
{
    json_error_t error;
    json_t *root, *other, *copy;
    char key[16];
    int i;

    json_object_seed(1);
    root = json_loads(text, 0, &error);
    if (!root)
        return 1;
    other = json_object();
    for (i = 0; i < 20; i++) {
        sprintf(key, "key%d", i);
        json_object_set_new(other, key, json_integer(i * i));
    }
    for (i = 0; i < 20; i += 3) {
        sprintf(key, "key%d", i);
        json_object_del(other, key);
    }
    json_object_set_new(root, "other", other);
    json_array_append_new(json_object_get(root, "b"), json_string("end"));
    json_array_insert_new(json_object_get(root, "b"), 1, json_integer(5));
    json_array_remove(json_object_get(root, "b"), 0);
    copy = json_copy(root);
    tell(copy);
    printf("\n%d %d\n", json_equal(root, copy), (int) json_object_size(other));
    json_object_clear(other);
    json_decref(copy);
    json_decref(root);
    return 0;
}
