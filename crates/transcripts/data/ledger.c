/* Keeps accounts: reads orders from its input, a line each.
     open NAME          opens an account
     add NAME AMOUNT    pays an amount in
     name NAME OTHER    gives an account another name
     sum                prints how much there is in all */

struct account {
    char name[12];
    int balance;
    struct account *next;
};

static struct account accounts[16];
static struct account *first; /* the account that was opened last */
static int opened;

static int call(int number, int a, int b, int c) {
    register int a7 asm("a7") = number, a0 asm("a0") = a;
    register int a1 asm("a1") = b, a2 asm("a2") = c;
    asm volatile("ecall" : "+r"(a0) : "r"(a7), "r"(a1), "r"(a2) : "memory");
    return a0;
}

/* Reads the next word, which a blank or the end of the line ends. */
static int read_word(char *word) {
    int n = 0;
    char c;
    while (call(63, 0, (int)&c, 1) == 1 && c != ' ' && c != '\n')
        if (n < 31) word[n++] = c;
    word[n] = 0;
    return n;
}

static int same(const char *a, const char *b) {
    while (*a && *a == *b) a++, b++;
    return *a == *b;
}

static int number(const char *digits) {
    int n = 0;
    while (*digits) n = 10 * n + *digits++ - '0';
    return n;
}

void set_name(struct account *account, const char *name) {
    int n = 0;
    while ((account->name[n] = name[n])) n++;
}

void open_account(const char *name) {
    struct account *account = &accounts[opened++];
    set_name(account, name);
    account->next = first;
    first = account;
}

struct account *find(const char *name) {
    struct account *account = first;
    while (account && !same(account->name, name)) account = account->next;
    return account;
}

void print_sum(void) {
    char text[12];
    int sum = 0, n = 11;
    for (struct account *account = first; account; account = account->next)
        sum += account->balance;
    text[n] = '\n';
    do text[--n] = '0' + sum % 10; while ((sum /= 10));
    call(64, 1, (int)(text + n), 12 - n);
}

void _start(void) {
    char order[32], name[32], other[32];
    while (read_word(order)) {
        if (same(order, "sum")) { print_sum(); continue; }
        read_word(name);
        if (same(order, "open")) { open_account(name); continue; }
        read_word(other);
        if (same(order, "add")) find(name)->balance += number(other);
        else set_name(find(name), other);
    }
    call(93, 0, 0, 0);
}
