/* Functions that are called through pointers: a sort with an order that is given, a walk over a tree with a visitor, and calls
   that end in a call of what was given. */
struct node { int key; struct node *left, *right; };
volatile int sink;
static struct node nodes[40];
static int numbers[40];

__attribute__((noinline)) static int up(int a, int b) { return a - b; }
__attribute__((noinline)) static int down(int a, int b) { return up(b, a); }

__attribute__((noinline)) static void sort(int *list, int count, int (*order)(int, int))
{
    for (int i = 1; i < count; i++)
        for (int j = i; j > 0 && order(list[j - 1], list[j]) > 0; j--) {
            int kept = list[j];
            list[j] = list[j - 1];
            list[j - 1] = kept;
        }
}

__attribute__((noinline)) static void add(int key) { sink += key; }
__attribute__((noinline)) static void twice(int key) { add(key); add(key); }
__attribute__((noinline)) static void passed(void (*visitor)(int), int key) { sink ^= key; visitor(key); }
__attribute__((noinline)) static void walk(struct node *at, void (*visitor)(int))
{
    if (!at)
        return;
    walk(at->left, visitor);
    passed(visitor, at->key);
    walk(at->right, visitor);
}

static struct node *insert(struct node *at, struct node *added)
{
    if (!at)
        return added;
    if (added->key < at->key)
        at->left = insert(at->left, added);
    else
        at->right = insert(at->right, added);
    return at;
}

__attribute__((noinline)) void finished(void) { for (;;) { } }

int main(void)
{
    struct node *root = 0;
    for (int i = 0; i < 40; i++) {
        nodes[i].key = numbers[i] = i * 29 % 41;
        root = insert(root, &nodes[i]);
    }
    for (int i = 0; i < 3; i++) {
        sort(numbers, 40, i & 1 ? up : down);
        walk(root, i & 1 ? add : twice);
    }
    finished();
}
