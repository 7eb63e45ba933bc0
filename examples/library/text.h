/* Words of letters. */
int word_length(const char *word);
int same_words(const char *a, const char *b);
unsigned word_hash(const char *word);
