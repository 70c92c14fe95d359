/* The calls that a tree of files makes of the file system for N objects of one directory, without the tree. Words:
   `make ROOT N`, `find ROOT N`, `remove ROOT N`. The tree lies in the folder `tree` below ROOT, and what a node has beside
   it, its attributes, would lie in the folder `side`; no object has any here. */
#include <fcntl.h>
#include <stdio.h>
#include <stdlib.h>
#include <string.h>
#include <sys/stat.h>
#include <unistd.h>

enum { LENGTH = 4096 };

static char folder[LENGTH], node[LENGTH], side[LENGTH];

/* Whether something stands there. */
static int stands(const char *path) {
    struct stat found;
    return lstat(path, &found) == 0;
}

/* The folder's names are on the disk. */
static int sync_folder(const char *path) {
    int file = open(path, O_RDONLY | O_CLOEXEC);
    if (file < 0) return 1;
    return fsync(file) != 0 || close(file) != 0;
}

/* Nothing may stand there nor beside it. The new file is synced, and then the folder. */
static int make(void) {
    if (stands(node) || stands(side)) return 1;
    int file = open(node, O_WRONLY | O_CREAT | O_EXCL | O_CLOEXEC, 0666);
    if (file < 0) return 1;
    return fsync(file) != 0 || close(file) != 0 || sync_folder(folder);
}

static int find(void) { return !stands(node); }

/* The file is found first. The folder is synced once the name is gone, and then what stands beside it would go. */
static int take_away(void) { return find() || unlink(node) != 0 || sync_folder(folder) || stands(side); }

/* A new folder, synced, and then the one in which it stands. */
static int make_folder(const char *path, const char *above) {
    return mkdir(path, 0777) != 0 || sync_folder(above);
}

static int start(const char *root) {
    char tree[LENGTH];
    snprintf(tree, LENGTH, "%s/tree", root);
    return make_folder(tree, root) || make_folder(folder, tree);
}

int main(int count, char **words) {
    if (count != 4) return 1;
    int (*command)(void) = strcmp(words[1], "make") == 0     ? make
                           : strcmp(words[1], "find") == 0   ? find
                           : strcmp(words[1], "remove") == 0 ? take_away
                                                             : NULL;
    if (command == NULL) return 1;
    const char *root = words[2];
    unsigned long objects = strtoul(words[3], NULL, 10);
    snprintf(folder, LENGTH, "%s/tree/objects", root);
    if (command == make && start(root)) return 1;
    for (unsigned long number = 0; number < objects; number++) {
        snprintf(node, LENGTH, "%s/tree/objects/object__head_%08lX__1", root, number);
        snprintf(side, LENGTH, "%s/side/c/objects/c/object__head_%08lX__1", root, number);
        if (command()) return 1;
    }
    return 0;
}
