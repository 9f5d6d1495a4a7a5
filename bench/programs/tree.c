/* A search tree of 4,000 nodes from malloc, walked in order and given back. */
#include <stdio.h>
#include <stdlib.h>

struct node {
    unsigned key;
    int count;
    struct node *left, *right;
};

static struct node *insert(struct node *at, unsigned key)
{
    if (at == NULL) {
        at = malloc(sizeof *at);
        if (at == NULL) exit(1);
        at->key = key;
        at->count = 1;
        at->left = at->right = NULL;
    } else if (key < at->key) {
        at->left = insert(at->left, key);
    } else if (key > at->key) {
        at->right = insert(at->right, key);
    } else {
        at->count++;
    }
    return at;
}

static unsigned walk(const struct node *at, unsigned sum)
{
    if (at == NULL) return sum;
    sum = walk(at->left, sum);
    sum = sum * 31u + at->key * (unsigned)at->count;
    return walk(at->right, sum);
}

static int give_back(struct node *at)
{
    int nodes;
    if (at == NULL) return 0;
    nodes = 1 + give_back(at->left) + give_back(at->right);
    free(at);
    return nodes;
}

int main(void)
{
    struct node *root = NULL;
    unsigned seed = 7;
    int i;
    for (i = 0; i < 4000; i++) {
        seed = seed * 1664525u + 1013904223u;
        root = insert(root, seed >> 16);
    }
    printf("%u\n", walk(root, 0));
    printf("%d\n", give_back(root));
    return 0;
}
