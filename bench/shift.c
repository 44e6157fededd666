/* Moves what is linked behind this file by SHIFT bytes: where a branch lies alone can double what it costs. */
#define WORDS(bytes) #bytes
#define SKIP(bytes) ".text\n.balign 64\n.skip " WORDS(bytes) "\n"

__asm__(SKIP(SHIFT));
