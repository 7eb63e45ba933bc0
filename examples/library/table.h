/* How often each word was counted. */
struct entry {
    char *word;
    int count;
    struct entry *next;
};

void count_word(const char *word);
int count_of(const char *word);
struct entry *first_entry(void);
