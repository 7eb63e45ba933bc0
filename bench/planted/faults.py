"""The faults: small edits of libraries, one at a time, each of a kind that is made in practice.

A library has its files and folders, from the folder of its sources on, the macros and headers that its own build gives, and
further words for saber-run. A fault has a name, a kind, a file, its edits as pairs of an old and a new text, of which the
first one in the file is meant, and the texts of the lines on which a step is undefined then.
"""
from dataclasses import dataclass, field


@dataclass(frozen=True)
class Fault:
    name: str
    kind: str
    file: str
    edits: tuple
    at: tuple


@dataclass(frozen=True)
class Library:
    name: str
    driver: str
    files: tuple
    faults: tuple
    folders: tuple = ()
    defines: tuple = ()
    made: dict = field(default_factory=dict)
    links: dict = field(default_factory=dict)
    words: tuple = ()


CELL = "hashtable->buckets[i].first = hashtable->buckets[i].last = &hashtable->list;"
OGG = Library("libogg", "use_ogg.c", ("src/bitwise.c", "src/framing.c"), (
    Fault("ogg1", "an allocation of an eighth", "src/framing.c", (("os->body_data=_ogg_malloc(os->body_storage*sizeof(*os->body_data));", "os->body_data=_ogg_malloc(os->body_storage/8);"),),
          ("memcpy(os->body_data+os->body_fill, iov[i].iov_base, iov[i].iov_len);",)),
    Fault("ogg2", "a test of growth without its margin", "src/bitwise.c", (("if(b->endbyte>=b->storage-4){", "if(b->endbyte>=b->storage){"),),
          ("b->ptr[1]=(unsigned char)(value>>(8-b->endbit));",)),
    Fault("ogg3", "realloc's result dropped", "src/framing.c", (("ret=_ogg_realloc(oy->data,newsize);", "ret=oy->data,_ogg_realloc(oy->data,newsize);"),),
          ("if(!ret){\n      ogg_sync_clear(oy);", "memcpy(ogg_sync_buffer(&sync, some), stream + at, some);")),
    Fault("ogg4", "memset left out", "src/framing.c", (("    memset(os,0,sizeof(*os));\n    os->body_storage", "    os->body_storage"),),
          ("if(os->body_returned){\n    /* advance",)),
    Fault("ogg5", "the wrong block freed", "src/framing.c", (("if(os->lacing_vals)_ogg_free(os->lacing_vals);", "if(os->lacing_vals)_ogg_free(os->body_data);"),),
          ("if(os->lacing_vals)_ogg_free(os->body_data);",)),
), ("include",), made={"ogg/config_types.h": "#include <stdint.h>\n" + "".join(
    f"typedef {sign}int{size}_t ogg_{sign}int{size}_t;\n" for size in (16, 32, 64) for sign in ("", "u"))}, words=("--narrow",))
GSM = Library("libgsm", "use_gsm.c", tuple(f"src/{it}.c" for it in """add code decode long_term lpc preprocess rpe gsm_destroy gsm_decode gsm_encode gsm_explode
    gsm_implode gsm_create gsm_option short_term table""".split()), (
    Fault("gsm1", "a loop once too often", "src/preprocess.c", (("register int		k = 160;", "register int		k = 161;"),), ("SO = SASR( *s, 3 ) << 2;",)),
    Fault("gsm2", "a wrong offset inside of a structure", "src/rpe.c", (("e -= 5;", "e -= 7;"),), ("L_result +=\n		  STEP(	0, 	-134 )", "STEP(	0, 	-134 )\n")),
    Fault("gsm3", "an array of the stack one short", "src/rpe.c", (("word	x[40];", "word	x[39];"),), ("x[k] =  (  L_result < MIN_WORD",)),
    Fault("gsm4", "memset left out", "src/gsm_create.c", (("	memset((char *)r, 0, sizeof(*r));\n", ""),), ("word       z1 = S->z1;",)),
    Fault("gsm5", "<= for <", "src/long_term.c", (("lambda <= 120; lambda++) {\n\n# undef STEP\n#		define STEP(k) 	(longword)wt[k] * dp", "lambda <= 121; lambda++) {\n\n# undef STEP\n#		define STEP(k) 	(longword)wt[k] * dp"),), ("L_result  = STEP(0)  ; L_result += STEP(1) ;",)),
    Fault("gsm6", "an array of the stack one short", "src/decode.c", (("erp[40]", "erp[39]"),),
          ("case 0:         *ep++ = *xMp++;", "while (++Mc < 4) *ep++ = 0;")),
), ("inc",), ("SASR", "NeedFunctionPrototypes=1"))
GIF = Library("giflib", "use_gif.c", ("dgif_lib.c", "egif_lib.c", "gifalloc.c", "gif_err.c", "gif_hash.c", "openbsd-reallocarray.c"), (
    Fault("gif1", "half of a table left unwritten", "gif_hash.c", (("HT_SIZE * sizeof(uint32_t)", "HT_SIZE * sizeof(uint16_t)"),),
          ("while ((HTKey = HT_GET_KEY(HTable[HKey])) != 0xFFFFFL) {",)),
    Fault("gif2", "a mask of one bit too many", "gif_hash.c", (("return ((Item >> 12) ^ Item) & HT_KEY_MASK;", "return ((Item >> 12) ^ Item) & 0x3FFF;"),),
          ("while ((HTKey = HT_GET_KEY(HTable[HKey])) != 0xFFFFFL) {",)),
    Fault("gif3", "an allocation one short", "gifalloc.c", (("calloc(ColorCount, sizeof(GifColorType))", "calloc(ColorCount - 1, sizeof(GifColorType))"),),
          ("memcpy((char *)Object->Colors,",)),
    Fault("gif4", "freed in the wrong order", "gifalloc.c", (("(void)free(Object->Colors);\n        (void)free(Object);", "(void)free(Object);\n        (void)free(Object->Colors);"),),
          ("(void)free(Object->Colors);",)),
    Fault("gif5", "<= + 1, inside of a structure", "dgif_lib.c", (("for (i = 0; i <= LZ_MAX_CODE; i++)", "for (i = 0; i <= LZ_MAX_CODE + 1; i++)"),), ("Prefix[i] = NO_SUCH_CODE;",)),
    Fault("gif6", "an allocation one row short", "gifalloc.c", (("(CopyFrom->ImageDesc.Height *", "((CopyFrom->ImageDesc.Height - 1) *"),),
          ("memcpy(sp->RasterBits, CopyFrom->RasterBits,",)),
    Fault("gif7", "an allocation one short", "gifalloc.c", (("malloc(ep->ByteCount);", "malloc(ep->ByteCount - 1);"),), ("memcpy(ep->Bytes, ExtData, Len);",)),
), (".",))
YAJL = Library("yajl", "use_yajl.c", tuple(f"src/{it}.c" for it in "yajl yajl_alloc yajl_buf yajl_encode yajl_gen yajl_lex yajl_parser".split()), (
    Fault("yajl1", "realloc's result dropped", "src/yajl_buf.c", (("buf->data = (unsigned char *) YA_REALLOC(", "(void) YA_REALLOC("),), ("memcpy(buf->data + buf->used, data, len);",)),
    Fault("yajl2", "an array of the stack too short", "src/yajl_encode.c", (("char utf8Buf[5];", "char utf8Buf[2];"),), ("utf8Buf[2] = 0;",)),
    Fault("yajl3", "a local object left unwritten", "src/yajl_encode.c", (("unsigned int codepoint = 0;", "unsigned int codepoint;"),), ("*val = (*val << 4) | c;",)),
    Fault("yajl4", "memset left out", "src/yajl_lex.c", (("    memset((void *) lxr, 0, sizeof(struct yajl_lexer_t));\n", ""),), ("c = readChar(lexer, jsonText, offset);\n\n        switch",)),
    Fault("yajl5", "memset left out", "src/yajl_gen.c", (("    memset((void *) g, 0, sizeof(struct yajl_gen_t));\n", ""),),
          ("ENSURE_VALID_STATE; ENSURE_NOT_KEY; INSERT_SEP; INSERT_WHITESPACE;\n    INCREMENT_DEPTH;\n    g->state[g->depth] = yajl_gen_array_start;",)),
), ("src",), links={"yajl": "src/api"}, words=("--narrow", "--integers"))
JANSSON = Library("jansson", "use_json.c", tuple(f"src/{it}.c" for it in "dump error hashtable hashtable_seed load memory strbuffer strconv utf value".split()), (
    Fault("jan1", "a walk over freed nodes", "src/hashtable.c", (("list != &hashtable->list; list = next) {", "list != &hashtable->list; list = list->next) {"),),
          ("for (list = hashtable->list.next; list != &hashtable->list; list = list->next) {",)),
    Fault("jan2", "<= for <", "src/hashtable.c", (("for (i = 0; i < hashsize(hashtable->order); i++) {", "for (i = 0; i <= hashsize(hashtable->order); i++) {"),), (CELL,)),
    Fault("jan3", "a freed table kept", "src/hashtable.c", (("    hashtable->buckets = new_buckets;\n", ""),), (CELL,)),
    Fault("jan4", "> for >=", "src/strbuffer.c", (("if (size >= strbuff->size - strbuff->length) {", "if (size > strbuff->size - strbuff->length) {"),),
          ("strbuff->value[strbuff->length] = '\\0';\n\n    return 0;",)),
    Fault("jan5", "freed before its last use", "src/hashtable.c", (("    json_decref(pair->value);\n\n    jsonp_free(pair);", "    json_decref(pair->value);\n"),
                                                                  ("    list_remove(&pair->list);\n", "    jsonp_free(pair);\n    list_remove(&pair->list);\n")),
          ("list_remove(&pair->list);\n    list_remove(&pair->ordered_list);", "list->prev->next = list->next;")),
    Fault("jan6", "a size in items for one in bytes", "src/value.c", (("new_table = jsonp_malloc(new_size * sizeof(json_t *));", "new_table = jsonp_malloc(new_size);"),),
          ("memcpy(&dest[dpos], &src[spos], count * sizeof(json_t *));",)),
), ("src",), ("HAVE_CONFIG_H=1",), {
    "jansson_private_config.h": "#define HAVE_STDINT_H 1\n#define HAVE_SYS_TYPES_H 1\n#define HAVE_STRTOLL 1\n#define INITIAL_HASHTABLE_ORDER 3\n",
    "jansson_config.h": "#define JSON_INLINE inline\n#define JSON_INTEGER_IS_LONG_LONG 0\n#define JSON_HAVE_LOCALECONV 0\n#define JSON_HAVE_ATOMIC_BUILTINS 0\n"
                        "#define JSON_HAVE_SYNC_BUILTINS 0\n#define JSON_PARSER_MAX_DEPTH 2048\n"}, words=("--narrow", "--integers"))
YAML = Library("libyaml", "use_yaml.c", tuple(f"src/{it}.c" for it in "api dumper emitter loader parser reader scanner writer".split()), (
    Fault("yam1", "realloc by one in place of twice", "src/api.c", (("(*end - *start)*2);", "(*end - *start)+1);"),), ("memset(new_start + (*end - *start), 0, *end - *start);",)),
    Fault("yam2", "the size of a pointer for that of its object", "src/dumper.c", (("yaml_malloc(sizeof(*(emitter->anchors))", "yaml_malloc(sizeof(emitter->anchors)"),),
          ("memset(emitter->anchors, 0, sizeof(*(emitter->anchors))",)),
    Fault("yam3", "memset of nothing", "src/dumper.c", (("memset(emitter->anchors, 0, sizeof(*(emitter->anchors))", "memset(emitter->anchors, 0, 0 * sizeof(*(emitter->anchors))"),),
          ("emitter->anchors[index-1].references ++;",)),
    Fault("yam4", "freed before its last use", "src/dumper.c", (("    yaml_free(emitter->anchors);\n\n    emitter->anchors = NULL;", "    emitter->anchors = NULL;"),
                                                               ("    for (index = 0; emitter->document->nodes.start + index", "    yaml_free(emitter->anchors);\n    for (index = 0; emitter->document->nodes.start + index")),
          ("if (!emitter->anchors[index].serialized) {",)),
    Fault("yam5", "a buffer of a wrong constant", "src/api.c", (("parser->buffer, INPUT_BUFFER_SIZE)", "parser->buffer, INPUT_BUFFER_SIZE/256)"),), ("*(parser->buffer.last++) = value;",)),
    Fault("yam6", "two owners of one string", "src/loader.c", (("                event->data.scalar.anchor)) return 0;", "                event->data.scalar.anchor)) return 0;\n    yaml_free(event->data.scalar.anchor);"),),
          ("if (strcmp((char *)alias_data->anchor, (char *)anchor) == 0) {\n            yaml_free(anchor);\n            return yaml_parser_load_node_add",)),
), ("include", "src"), ("YAML_VERSION_MAJOR=0", "YAML_VERSION_MINOR=2", "YAML_VERSION_PATCH=5", 'YAML_VERSION_STRING="0.2.5"'))
LIBRARIES = (OGG, GSM, GIF, YAJL, JANSSON, YAML)
