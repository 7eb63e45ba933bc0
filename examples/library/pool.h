/* Room for words: each gets a copy of its own. */
char *keep_word(const char *word);
int words_kept(void);
