#define WORD_ROOM 32
#define TABLE_ROOM 64

struct entry {
    char word[WORD_ROOM];
    int count;
};

int next_word(char *word, int room);
void count_word(const char *word);
int words_known(void);
const struct entry *entry_at(int n);
